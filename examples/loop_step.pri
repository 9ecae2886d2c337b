// A loop step. The loop `while (i < n) { i = i + 1; s = s + 3; }` keeps 0 <= i <= n & s = 3*i: so it is after a step where it was
// before. The names i1 and s1 are the values after the step.
// $ ./princess solve examples/loop_step.pri
// VALID
\universalConstants { int n, i, s, i1, s1; }
\problem {
    0 <= i & i <= n & s = 3*i           // the invariant
    & i < n                             // the loop goes on
    & i1 = i + 1 & s1 = s + 3           // its body
    -> 0 <= i1 & i1 <= n & s1 = 3*i1    // the invariant again
}
