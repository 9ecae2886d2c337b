// The least value of a term over all solutions: `least FILE TERM`. For the greatest value, ask for the least one of the negative.
// $ ./princess least examples/pair.pri b
// least: 3
// at: a = 2, b = 3
// $ ./princess least examples/pair.pri "a + 2*b"
// least: 8
// at: a = 2, b = 3
// $ ./princess least examples/pair.pri -- -a
// least: -2
// at: a = 2, b = 3
// $ ./princess least examples/pair.pri a
// unbounded
// $ ./princess least examples/pair.pri c
// refused: Objective
\existentialConstants { int a, b; }
\problem { a + b >= 5 & a <= 2 }
