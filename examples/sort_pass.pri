// One pass of sorting over three cells: the lesser of the first two goes to the front, and the lesser of what is left of them and of the
// third one behind it. That does not sort them.
// $ ./princess solve examples/sort_pass.pri
// INVALID
// counterexample:
// a(0) = 1
// a(1) = 1
\functions { int a(int); }
\problem { \min(a(0), a(1)) <= \min(\max(a(0), a(1)), a(2)) }
