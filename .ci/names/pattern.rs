//! `pattern`: the pattern of a compressed matrix, and the error of its constructor.

use crate::bounds::{is_clone, is_debug, is_display, is_eq, is_error, is_iterator, is_partial_eq};
use nalgebra_sparse::pattern::{SparsityPattern, SparsityPatternFormatError, SparsityPatternIter};
use std::alloc::{AllocError, Global};

type Checked = Result<SparsityPattern, SparsityPatternFormatError>;

fn made() {
    let _zeros: fn(Global, usize, usize) -> Result<SparsityPattern, AllocError> =
        SparsityPattern::zeros;
    let _checked: fn(usize, usize, Vec<usize>, Vec<usize>) -> Checked =
        SparsityPattern::try_from_offsets_and_indices;
    let _unchecked: fn(usize, usize, Vec<usize>, Vec<usize>) -> SparsityPattern =
        SparsityPattern::from_offset_and_indices_unchecked;
    let _transpose: fn(&SparsityPattern, Global) -> Result<SparsityPattern, AllocError> =
        SparsityPattern::transpose;
    let _clone: fn(&SparsityPattern, Global) -> Result<SparsityPattern, AllocError> =
        SparsityPattern::clone;
}

fn read() {
    let _major_offsets: fn(&SparsityPattern) -> &[usize] = SparsityPattern::major_offsets;
    let _minor_indices: fn(&SparsityPattern) -> &[usize] = SparsityPattern::minor_indices;
    let _major_dim: fn(&SparsityPattern) -> usize = SparsityPattern::major_dim;
    let _minor_dim: fn(&SparsityPattern) -> usize = SparsityPattern::minor_dim;
    let _nnz: fn(&SparsityPattern) -> usize = SparsityPattern::nnz;
    let _lane: fn(&SparsityPattern, usize) -> &[usize] = SparsityPattern::lane;
    let _get_lane: fn(&SparsityPattern, usize) -> Option<&[usize]> = SparsityPattern::get_lane;
    let _entries: fn(&SparsityPattern) -> SparsityPatternIter<'_> = SparsityPattern::entries;
    let _disassemble: fn(SparsityPattern) -> (Vec<usize>, Vec<usize>) =
        SparsityPattern::disassemble;
}

fn derived() {
    is_partial_eq::<SparsityPattern>();
    is_eq::<SparsityPattern>();
    is_debug::<SparsityPattern>();
    is_partial_eq::<SparsityPatternFormatError>();
    is_eq::<SparsityPatternFormatError>();
    is_debug::<SparsityPatternFormatError>();
    is_display::<SparsityPatternFormatError>();
    is_error::<SparsityPatternFormatError>();
}

fn entries<'a>() {
    is_clone::<SparsityPatternIter<'a>>();
    is_iterator::<SparsityPatternIter<'a>, (usize, usize)>();
}

fn faults(error: SparsityPatternFormatError) {
    match error {
        SparsityPatternFormatError::InvalidOffsetArrayLength => {}
        SparsityPatternFormatError::InvalidOffsetFirstLast => {}
        SparsityPatternFormatError::NonmonotonicOffsets => {}
        SparsityPatternFormatError::MinorIndexOutOfBounds => {}
        SparsityPatternFormatError::DuplicateEntry => {}
        SparsityPatternFormatError::NonmonotonicMinorIndices => {}
    }
}
