// Between a fact about c and one about 0: the formula has the predicate that both sides have, and no name of one side alone.
// $ ./princess solve examples/predicate_cut.pri
// VALID
// interpolant: \exists int v0; ((p(v0)) & (v0 = 0))
\universalConstants { int c; }
\predicates { p(int); }
\problem { \part[l] (p(c) & c = 0) & \part[r] (!p(0)) -> false }
\interpolant { l; r }
