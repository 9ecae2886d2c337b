// A type without a value: whatever is said of a universal constant of it holds.
// $ ./princess solve examples/empty_range.pri
// VALID
\universalConstants { int[3, 1] x; }
\problem { x = 0 }
