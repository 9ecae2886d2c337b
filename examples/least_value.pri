// The least value of x + y under a condition. The printed value is one that x + y takes (the first line of the problem), and no value
// that it takes is smaller (the second). For the greatest value, turn the sign of the last relation.
// $ ./princess solve examples/least_value.pri
// VALID
// constraint: least - 7 = 0
// solution: least = 7
\existentialConstants { int least; }
\problem {
    \exists int x, y; (3*x + 2*y >= 20 & x >= 0 & y >= 0 & y <= 7 & least = x + y)
    & \forall int x, y; (3*x + 2*y >= 20 & x >= 0 & y >= 0 & y <= 7 -> least <= x + y)
}
