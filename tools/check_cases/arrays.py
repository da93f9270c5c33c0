"""Matrices and lists from arrays: the first fault of the arrays, or the matrix that they represent."""
from .matrices import Matrix, Over, Triplets, drawn_arrays, drawn_list, matrix_of, shown
from .scalars import scalar_of
from .words import Picture, Refused, index_of, named_lists, size_of

GREATEST = 2**64 - 1
# The faults of sorted arrays: the kind of a matrix's error, and the texts for a pattern, for rows and for columns.
FAULTS = {
    "InvalidOffsetArrayLength": (
        "InvalidStructure",
        "Length of offset array is not equal to (major_dim + 1).",
        "Length of row offset array is not equal to nrows + 1.",
        "Length of col offset array is not equal to ncols + 1.",
    ),
    "InvalidOffsetFirstLast": (
        "InvalidStructure",
        "First or last offset is incompatible with format.",
        "First or last row offset is inconsistent with format specification.",
        "First or last col offset is inconsistent with format specification.",
    ),
    "NonmonotonicOffsets": (
        "InvalidStructure",
        "Offsets are not monotonically increasing.",
        "Row offsets are not monotonically increasing.",
        "Col offsets are not monotonically increasing.",
    ),
    "NonmonotonicMinorIndices": (
        "InvalidStructure",
        "Minor indices are not monotonically increasing within each lane.",
        "Column indices are not monotonically increasing (sorted) within each row.",
        "Row indices are not monotonically increasing (sorted) within each column.",
    ),
    "MinorIndexOutOfBounds": (
        "IndexOutOfBounds",
        "A minor index is out of bounds.",
        "Column indices are out of bounds.",
        "Row indices are out of bounds.",
    ),
    "DuplicateEntry": (
        "DuplicateEntry",
        "Input data contains duplicate entries.",
        "Matrix data contains duplicate entries.",
        "Matrix data contains duplicate entries.",
    ),
}
VALUES = {
    "rows": "Number of values and column indices must be the same",
    "columns": "Number of values and row indices must be the same",
}
FORMS = {"csr": "rows", "csc": "columns"}
# The names of the lists behind a size.
ARRAYS = ("offsets", "indices", "values")
COORDINATES = ("rows", "cols", "values")


def fault_of(lanes, length, offsets, indices):
    """Returns the first fault of the sorted arrays of a pattern, or `None`."""
    if lanes == GREATEST or len(offsets) != lanes + 1:
        return "InvalidOffsetArrayLength"
    if offsets[0] != 0 or offsets[-1] != len(indices):
        return "InvalidOffsetFirstLast"
    for start, end in zip(offsets, offsets[1:]):
        if not start <= end <= len(indices):
            return "NonmonotonicOffsets"
        for before, index in zip([-1, *indices[start:end]], indices[start:end]):
            if length <= index:
                return "MinorIndexOutOfBounds"
            if index <= before:
                return "DuplicateEntry" if index == before else "NonmonotonicMinorIndices"
    return None


def pattern_of(lanes, length, offsets, indices):
    """Returns the pattern of arrays, whose lanes are its rows."""
    fault = fault_of(lanes, length, offsets, indices)
    if fault:
        raise Refused(fault, FAULTS[fault][1])
    return Matrix(lanes, length, dict.fromkeys(pairs_of(offsets, indices)))


def pairs_of(offsets, indices):
    """Returns the lane and the index of each entry, in the order of the arrays."""
    return [(lane, index) for lane, end in enumerate(offsets[1:]) for index in indices[offsets[lane]:end]]


def compressed(over, size, offsets, indices, values):
    """Returns the matrix of sorted arrays."""
    fault = fault_of(*over.lane(size), offsets, indices)
    if fault:
        kind, _, *texts = FAULTS[fault]
        raise Refused(kind, texts[over.form == "columns"])
    if len(values) != len(indices):
        raise Refused("InvalidStructure", VALUES[over.form])
    return Matrix(*size, {over.lane(pair): value for pair, value in zip(pairs_of(offsets, indices), values)})


def unsorted(lanes, length, offsets, indices, values):
    """Returns the pairs of lane and index of arrays whose lanes need not be sorted, with their values."""
    if len(values) != len(indices):
        raise Refused("InvalidStructure", "Number of values and minor indices must be the same.")
    if not offsets:
        raise Refused("InvalidStructure", "Number of offsets should be greater than 0.")
    if lanes == GREATEST or len(offsets) != lanes + 1:
        raise Refused("InvalidStructure", "Length of offset array is not equal to (major_dim + 1).")
    if offsets[0] != 0 or offsets[-1] != len(indices):
        raise Refused("InvalidStructure", "First or last offset is incompatible with format.")
    for start, end in zip(offsets, offsets[1:]):
        if end < start:
            raise Refused("InvalidStructure", "Offsets are not monotonically increasing.")
        if len(indices) < end:
            raise Refused("IndexOutOfBounds", "A major offset is out of bounds.")
        lane = indices[start:end]
        if any(length <= index for index in lane):
            raise Refused("IndexOutOfBounds", "A minor index is out of bounds.")
        if len(set(lane)) != len(lane):
            raise Refused("DuplicateEntry", "Input data contains duplicate entries.")
    return dict(zip(pairs_of(offsets, indices), values))


def triplets_of(size, rows, cols, values):
    """Returns the list of three arrays."""
    if len(rows) != len(cols):
        raise Refused("InvalidStructure", "Number of row and col indices must be the same.")
    if len(cols) != len(values):
        raise Refused("InvalidStructure", "Number of col indices and values must be the same.")
    return checked(Triplets(*size, list(zip(rows, cols, values))))


def checked(triplets):
    """Returns a list, if its triplets are in bounds: all rows are tested before the columns."""
    if any(triplets.nrows <= row for row, _, _ in triplets.triplets):
        raise Refused("IndexOutOfBounds", "Row index out of bounds.")
    if any(triplets.ncols <= col for _, col, _ in triplets.triplets):
        raise Refused("IndexOutOfBounds", "Col index out of bounds.")
    return triplets


def lists_of(words, names, scalars):
    """Returns the lists of indices and the list of values behind three names."""
    first, second, values = named_lists(words, names)
    return [index_of(word) for word in first], [index_of(word) for word in second], values_of(values, scalars)


def values_of(words, scalars):
    """Returns the scalars that words write."""
    return [scalar_of(word, scalars) for word in words]


def joined(over, pattern, values):
    """Returns the matrix of a pattern and its values, in the order of the format."""
    if len(values) != len(pattern.entries):
        raise Refused("InvalidStructure", VALUES[over.form])
    return pattern.with_entries(dict(zip(sorted(pattern.entries, key=over.lane), values)))


def answer(words, over):
    """Returns the answer of a constructor from arrays, or `None` if the call is not one."""
    match words:
        case ["view", "csr" | "csc" | "coo", *_]:
            return answer(words[1:], over)
        case ["csr" | "csc" as kind, size, *lists]:
            form = over._replace(form=FORMS[kind])
            return shown(compressed(form, size_of(size), *lists_of(lists, ARRAYS, over.scalars)), form)
        case ["coo", size, *lists]:
            return drawn_list(triplets_of(size_of(size), *lists_of(lists, COORDINATES, over.scalars)))
        case ["unsorted", size, *lists]:
            lanes, length = size_of(size)
            entries = unsorted(lanes, length, *lists_of(lists, ARRAYS, over.scalars))
            return drawn_arrays(Matrix(lanes, length, entries), Over("rows", over.scalars))
        case ["join", Picture() as pattern, "values", *values]:
            return shown(joined(over, matrix_of(pattern, over), values_of(values, over.scalars)), over)
    return None
