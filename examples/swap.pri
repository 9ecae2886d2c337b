// Two assignments exchange two elements of an array. The array after each write is a new function; what a write says of it is the element
// that it wrote, and the elements that are asked for and that it left.
// $ ./princess solve examples/swap.pri
// VALID
\universalConstants { int i, j, x, y; }
\functions { int a(int), b(int), c(int); }
\problem {
    x = a(i) & y = a(j)
    & b(i) = y & (j != i -> b(j) = a(j))        // b is a with y at i
    & c(j) = x & (i != j -> c(i) = b(i))        // c is b with x at j
    -> c(i) = a(j) & c(j) = a(i)
}
