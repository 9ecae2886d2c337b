// A relation that is an order has no cycle of two: assumptions on a relation are quantified.
// $ ./princess solve examples/order.pri
// VALID
\universalConstants { int x, y; }
\predicates { r(int, int); }
\problem {
    \forall int a; !r(a, a) & \forall int a, b, c; (r(a, b) & r(b, c) -> r(a, c))
    -> !(r(x, y) & r(y, x))
}
