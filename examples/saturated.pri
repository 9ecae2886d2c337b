// A predicate that holds at 1 does not have to hold at 2.
// $ ./princess solve examples/saturated.pri
// INVALID
// counterexample:
// p(1)
\predicates { p(int); }
\problem { p(1) -> p(2) }
