// Each step needs an instance of both assumptions; `solve --stats` says which one was instantiated how often.
// $ ./princess solve examples/instances.pri
// VALID
\functions { int f(int); }
\predicates { p(int); }
\problem {
  (\forall int x; f(x) = x + 1) &
  p(0) &
  (\forall int x; (p(x) -> p(f(x)))) -> p(30)
}
