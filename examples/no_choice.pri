// A type without a value: no existential constant of it can be chosen.
// $ ./princess solve examples/no_choice.pri
// INVALID
\existentialConstants { int[3, 1] a; }
\problem { true }
