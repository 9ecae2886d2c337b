// Of p(0) alone, p(1) does not follow.
// $ ./princess solve examples/not_enough.pri
// INVALID
// counterexample:
// p(0)
\predicates { p(int); }
\problem { p(0) -> p(0) & p(1) }
