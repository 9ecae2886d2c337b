// Equal arguments have equal values, but equal values need no equal arguments.
// $ ./princess solve examples/wrong_congruence.pri
// INVALID
// counterexample:
// x = 0
// y = 1
// f(0) = 0
// f(1) = 0
\universalConstants { int x, y; }
\functions { int f(int); }
\problem { f(x) = f(y) -> x = y }
