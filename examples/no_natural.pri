// No number from 0 on comes directly before 0.
// $ ./princess solve examples/no_natural.pri
// INVALID
\problem { \exists nat x; x + 1 = 0 }
