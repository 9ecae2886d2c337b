// Congruences. A number leaves the remainder 2 by 3, 3 by 5 and 2 by 7. A remainder is said by a quotient that exists. The printed
// value is the number nearest to 0 that is at least 1; the constraint says all of them.
// $ ./princess solve examples/remainders.pri
// VALID
// constraint: x - 1 >= 0 & \exists int k0; x + 1 = 3*k0 & \exists int k0; x + 2 = 5*k0 & \exists int k0; x + 5 = 7*k0
// solution: x = 23
\existentialConstants { int x; }
\problem {
    x >= 1 & \exists int q; x = 3*q + 2 & \exists int q; x = 5*q + 3 & \exists int q; x = 7*q + 2
}
