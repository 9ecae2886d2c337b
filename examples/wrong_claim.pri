// A claim that does not hold: each x from 0 to 10 has 3*x <= 29. INVALID says no more than that; wrong_claim_values.pri has values.
// $ ./princess solve examples/wrong_claim.pri
// INVALID
\universalConstants { int x; }
\problem {
    0 <= x & x <= 10 -> 3*x <= 29
}
