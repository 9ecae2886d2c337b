// The greatest gain. A piece of the first good takes 2 units of wood, one of the second 1 unit, and 14 units are there. Each piece
// takes an hour, and there are 9. A piece brings a gain of 3, or of 2.
// $ ./princess solve examples/greatest_value.pri
// VALID
// constraint: most - 23 = 0
// solution: most = 23
\existentialConstants { int most; }
\problem {
    \exists int x, y; (x >= 0 & y >= 0 & 2*x + y <= 14 & x + y <= 9 & most = 3*x + 2*y)
    & \forall int x, y; (x >= 0 & y >= 0 & 2*x + y <= 14 & x + y <= 9 -> most >= 3*x + 2*y)
}
