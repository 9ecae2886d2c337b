// A comparison that fails.
// $ ./princess solve examples/invalid.pri
// INVALID
\problem { 2 = 3 }
