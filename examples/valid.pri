// The numbers alone decide it.
// $ ./princess solve examples/valid.pri
// VALID
\problem { 1 < 2 & !(2 = 3) }
