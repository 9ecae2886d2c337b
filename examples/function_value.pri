// An existential constant is chosen before the functions are, so no number is f(0) whatever f is.
// $ ./princess solve examples/function_value.pri
// INVALID
// counterexample:
// a = 0
// f(0) = 1
\existentialConstants { int a; }
\functions { int f(int); }
\problem { a = f(0) }
