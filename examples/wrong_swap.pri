// A wrong claim about a swap of two elements, at three different places.
// $ ./princess solve examples/wrong_swap.pri
// INVALID
// counterexample:
// i = 1
// j = -1
// k = 0
// a(0) = 1
// b(0) = 1
\universalConstants { int i, j, k; }
\functions { int a(int), b(int); }
\problem {
    i != j & i != k & j != k
    & b(i) = a(j) & b(j) = a(i) & b(k) = a(k)    // b is a with the elements at i and j swapped
    -> b(k) = a(i)
}
