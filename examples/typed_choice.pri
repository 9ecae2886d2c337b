// Types. A digit from 2 to 9 that leaves the remainder 1 by 4, with a quotient that is not negative. The type is a condition on the
// constant, and stands in the constraint.
// $ ./princess solve examples/typed_choice.pri
// VALID
// constraint: -a + 9 >= 0 & a - 2 >= 0 & \exists int k0; a + 3 = 4*k0
// solution: a = 5
\existentialConstants { int[2, 9] a; }
\problem { \exists nat x; a = 4*x + 1 }
