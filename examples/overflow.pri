// A sum past the range of coefficients.
// $ ./princess solve examples/overflow.pri
// UNKNOWN: overflow
\problem { 170141183460469231731687303715884105727 + 1 > 0 }
