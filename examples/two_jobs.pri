// Two jobs of 3 and 4 hours share a machine. Both start at hour 0 or later, and all has to be done by hour 9.
// $ ./princess solve examples/two_jobs.pri
// VALID
// constraint: -first + 6 >= 0 & -first + second - 3 >= 0 & first >= 0 & -second + 5 >= 0 & second >= 0 | -first + 6 >= 0 & first >= 0 & first - second - 4 >= 0 & -second + 5 >= 0 & second >= 0
// solution: first = 0, second = 3
\existentialConstants { nat first, second; }
\problem { (first + 3 <= second | second + 4 <= first) & first + 3 <= 9 & second + 4 <= 9 }
