// A counterexample. The problem of wrong_claim.pri with its constants as existential ones and !(..) round the formula: the values that
// are printed make the claim false, and the constraint says all values that do.
// $ ./princess solve examples/wrong_claim_values.pri
// VALID
// constraint: x - 10 = 0
// solution: x = 10
\existentialConstants { int x; }
\problem {
    !(0 <= x & x <= 10 -> 3*x <= 29)
}
