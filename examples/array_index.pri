// Is each index in range? A loop runs i from 0 to n - 1 and reads a window of three elements at 2*i, 2*i + 1 and 2*i + 2 of an array
// of 2*n + 1 elements.
// $ ./princess solve examples/array_index.pri
// VALID
\universalConstants { int n, i; }
\problem {
    0 <= i & i < n -> 0 <= 2*i & 2*i + 2 < 2*n + 1
}
