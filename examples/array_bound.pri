// An array bound. Elements 0 to n - 1 of the array a are at most m, so the one at any index j of that range is. An array is a
// function, and what is known of its elements is a quantified assumption.
// $ ./princess solve examples/array_bound.pri
// VALID
\universalConstants { int n, m, j; }
\functions { int a(int); }
\problem {
    \forall int i; (0 <= i & i < n -> a(i) <= m) & 0 <= j & j < n
    -> a(j) <= m
}
