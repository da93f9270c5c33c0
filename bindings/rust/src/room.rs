//! Room for results.

use std::alloc::{alloc_zeroed, Layout};
use std::ptr::slice_from_raw_parts_mut;

use crate::error::{answer, TOO_SMALL};
use crate::matrices::Parts;
use crate::Error;

/// A number whose value 0 has only zero bytes.
///
/// # Safety
///
/// Zero bytes are a value of the type, and dropping a value does nothing.
pub(crate) unsafe trait Number: Copy {}

// SAFETY: these are integers.
unsafe impl Number for usize {}
// SAFETY: as above.
unsafe impl Number for i64 {}
// SAFETY: as above.
unsafe impl Number for u8 {}

/// Returns this many zeros. Their pages are allocated when they are written.
pub(crate) fn zeros<T: Number>(count: usize) -> Result<Vec<T>, Error> {
    let layout = Layout::array::<T>(count).map_err(|_| Error::OutOfMemory)?;
    if layout.size() == 0 {
        return Ok(Vec::new());
    }
    // SAFETY: the layout has a size other than 0.
    let block = unsafe { alloc_zeroed(layout) }.cast::<T>();
    if block.is_null() {
        return Err(Error::OutOfMemory);
    }
    // SAFETY: the global allocator made the block with the layout of `count` numbers, and its bytes are 0.
    let list = unsafe { Box::from_raw(slice_from_raw_parts_mut(block, count)) };
    Ok(list.into_vec())
}

/// Makes a call with room for this many entries, or triplets, or bytes. If that is too little, calls once more with
/// room for as many as the call tells that it needs. Returns how many it wrote, and the arrays, which may be longer.
pub(crate) fn with_room<A>(
    room: usize,
    arrays: impl Fn(usize) -> Result<A, Error>,
    mut call: impl FnMut(&mut A, &mut usize) -> i32,
) -> Result<(usize, A), Error> {
    let (mut count, mut filled) = (0, arrays(room)?);
    let mut status = call(&mut filled, &mut count);
    if status == TOO_SMALL {
        filled = arrays(count)?;
        status = call(&mut filled, &mut count);
    }
    answer(status)?;
    Ok((count, filled))
}

/// Truncates a list to its first items, and releases the rest of its memory.
pub(crate) fn cut<T>(mut list: Vec<T>, count: usize) -> Vec<T> {
    list.truncate(count);
    list.shrink_to_fit();
    list
}

/// Makes a call with arrays for a result with this many lanes and room for this many entries, once more if it needs
/// more, and truncates them to the entries of the result.
pub(crate) fn into_parts(
    lanes: usize,
    room: usize,
    mut call: impl FnMut(&mut [usize], &mut [usize], &mut [i64], &mut usize) -> i32,
) -> Result<Parts, Error> {
    let mut offsets = zeros(lanes.checked_add(1).ok_or(Error::OutOfMemory)?)?;
    let (places, (indices, values)) = with_room(
        room,
        |count| Ok((zeros(count)?, zeros(count)?)),
        |(indices, values), places| call(&mut offsets, indices, values, places),
    )?;
    Ok((offsets, cut(indices, places), cut(values, places)))
}

/// Makes a call with an array for the values of a dense matrix.
pub(crate) fn into_values(rows: usize, cols: usize, call: impl FnOnce(&mut [i64]) -> i32) -> Result<Vec<i64>, Error> {
    let mut values = zeros(rows.checked_mul(cols).ok_or(Error::OutOfMemory)?)?;
    answer(call(&mut values))?;
    Ok(values)
}

#[cfg(test)]
mod tests {
    use super::into_parts;
    use crate::{calls, multiply, Rows};

    /// With less room than a product needs, the call is repeated, and has the same result.
    #[test]
    fn a_call_is_made_again_with_the_size_that_it_tells() {
        let a = Rows::new((2, 2), (&[0, 2, 3], &[0, 1, 1], &[1, 2, 3]));
        let want = multiply(a, a).unwrap().into_parts();
        for room in 0..=want.1.len() {
            let mut told = Vec::new();
            // SAFETY: each pointer is that of a slice, with the slice's length after it.
            let parts = into_parts(2, room, |o, x, v, places| unsafe {
                let status = calls::nalgebra_sparse_multiply(
                    2, 2, 2,
                    a.offsets.as_ptr(), a.offsets.len(), a.indices.as_ptr(), a.indices.len(), a.values.as_ptr(), a.values.len(),
                    a.offsets.as_ptr(), a.offsets.len(), a.indices.as_ptr(), a.indices.len(), a.values.as_ptr(), a.values.len(),
                    o.as_mut_ptr(), o.len(), x.as_mut_ptr(), x.len(), v.as_mut_ptr(), v.len(), places,
                );
                told.push((status, *places));
                status
            });
            assert_eq!(parts.unwrap(), want);
            assert_eq!(told, if room < 3 { vec![(5, 3), (0, 3)] } else { vec![(0, 3)] });
        }
    }
}
