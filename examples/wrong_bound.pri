// A bound of the first two cells does not bound the third one, which the index may reach.
// $ ./princess solve examples/wrong_bound.pri
// INVALID
// counterexample:
// m = 0
// j = 2
// a(0) = 0
// a(1) = 0
// a(2) = 1
\universalConstants { int m; int[0, 2] j; }
\functions { int a(int); }
\problem { a(0) <= m & a(1) <= m -> a(j) <= m }
