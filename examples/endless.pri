// What holds at 0, and goes on from each x to x + 2, need not hold at 5; the search goes on until its budget ends.
// $ ./princess solve examples/endless.pri
// UNKNOWN: steps
\predicates { p(int); }
\problem { p(0) & \forall int x; (p(x) -> p(x + 2)) -> p(5) }
