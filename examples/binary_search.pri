// One step of a binary search: the middle of a range that is not empty is inside it, and both halves are shorter.
// $ ./princess solve examples/binary_search.pri
// VALID
\universalConstants { int low, high, middle; }
\problem {
    low <= high & 2*middle <= low + high & low + high <= 2*middle + 1
    -> low <= middle & middle <= high & middle - low < high - low + 1 & high - (middle + 1) < high - low
}
