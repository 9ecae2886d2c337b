// Which intervals from low to high that are not empty lie inside the one from 3 to 10? `elim` prints the constraint alone.
// $ ./princess solve examples/interval.pri
// VALID
// constraint: -low + high >= 0 & low - 3 >= 0 & -high + 10 >= 0
// solution: low = 3, high = 3
// $ ./princess elim examples/interval.pri
// constraint: -low + high >= 0 & low - 3 >= 0 & -high + 10 >= 0
\existentialConstants { int low, high; }
\problem {
    low <= high & \forall int x; (low <= x & x <= high -> 3 <= x & x <= 10)
}
