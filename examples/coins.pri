// From which amount on can everything be paid with coins of 3 and 5, where change is not given?
// $ ./princess solve examples/coins.pri
// VALID
// constraint: least - 8 >= 0
// solution: least = 8
\existentialConstants { int least; }
\problem {
    \forall int n; (n >= least -> \exists int x, y; (x >= 0 & y >= 0 & n = 3*x + 5*y))
}
