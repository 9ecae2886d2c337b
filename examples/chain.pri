// What holds at 0, and goes on from each x to x + 2, holds at 4.
// $ ./princess solve examples/chain.pri
// VALID
\predicates { p(int); }
\problem { p(0) & \forall int x; (p(x) -> p(x + 2)) -> p(4) }
