// Each number from 0 on is a double of one, or a double and one more.
// $ ./princess solve examples/halves.pri
// VALID
\problem { \forall nat n; \exists nat m; (n = 2*m | n = 2*m + 1) }
