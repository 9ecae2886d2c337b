// Two steps of a model checker. A counter starts at 0 and goes on by two; after two steps it must not be 3. The interpolant is
// what the first step says of the state between them, and no more: s0 is gone, since the second set does not speak of it.
// $ ./princess solve examples/two_steps.pri
// VALID
// interpolant: s1 - 2 = 0
\universalConstants { int s0, s1, s2; }
\problem {
    \part[init] (s0 = 0) & \part[step1] (s1 = s0 + 2) & \part[step2] (s2 = s1 + 2) -> \part[safe] (s2 != 3)
}
\interpolant { init, step1; step2, safe }
