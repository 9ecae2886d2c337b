// Three steps of a counter that must not be 5 behind them. A block for each place between two steps asks what has to be known there;
// each answer is about the state at that place alone.
// $ ./princess solve examples/sequence.pri
// VALID
// interpolant: s0 = 0
// interpolant: s1 - 2 = 0
// interpolant: s2 - 4 = 0
\universalConstants { int s0, s1, s2, s3; }
\problem {
    \part[init] (s0 = 0) & \part[one] (s1 = s0 + 2) & \part[two] (s2 = s1 + 2) & \part[three] (s3 = s2 + 2)
    -> \part[safe] (s3 != 5)
}
\interpolant { init; one, two, three, safe }
\interpolant { init, one; two, three, safe }
\interpolant { init, one, two; three, safe }
