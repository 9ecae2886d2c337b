// A schedule. Three jobs of 3, 2 and 4 hours on one machine, from hour 0 to hour 9; the first is to end before hour 6, and the third
// may not begin before hour 2. The printed values are times at which they may begin.
// $ ./princess solve examples/schedule.pri
// VALID
// constraint: -a + 3 >= 0 & -a + b - 3 >= 0 & -a + c - 3 >= 0 & a >= 0 & -b + 7 >= 0 & -b + c - 2 >= 0 & b >= 0 & -c + 5 >= 0 & c - 2 >= 0 | -a + 3 >= 0 & -a + b - 3 >= 0 & -a + c - 3 >= 0 & a >= 0 & -b + 7 >= 0 & b >= 0 & b - c - 4 >= 0 & -c + 5 >= 0 & c - 2 >= 0 | -a + 3 >= 0 & -a + b - 3 >= 0 & a >= 0 & a - c - 4 >= 0 & -b + 7 >= 0 & -b + c - 2 >= 0 & b >= 0 & -c + 5 >= 0 & c - 2 >= 0 | -a + 3 >= 0 & -a + b - 3 >= 0 & a >= 0 & a - c - 4 >= 0 & -b + 7 >= 0 & b >= 0 & b - c - 4 >= 0 & -c + 5 >= 0 & c - 2 >= 0 | -a + 3 >= 0 & -a + c - 3 >= 0 & a >= 0 & a - b - 2 >= 0 & -b + 7 >= 0 & -b + c - 2 >= 0 & b >= 0 & -c + 5 >= 0 & c - 2 >= 0 | -a + 3 >= 0 & -a + c - 3 >= 0 & a >= 0 & a - b - 2 >= 0 & -b + 7 >= 0 & b >= 0 & b - c - 4 >= 0 & -c + 5 >= 0 & c - 2 >= 0 | -a + 3 >= 0 & a >= 0 & a - b - 2 >= 0 & a - c - 4 >= 0 & -b + 7 >= 0 & -b + c - 2 >= 0 & b >= 0 & -c + 5 >= 0 & c - 2 >= 0 | -a + 3 >= 0 & a >= 0 & a - b - 2 >= 0 & a - c - 4 >= 0 & -b + 7 >= 0 & b >= 0 & b - c - 4 >= 0 & -c + 5 >= 0 & c - 2 >= 0
// solution: a = 0, b = 3, c = 5
\existentialConstants { int a, b, c; }
\problem {
    0 <= a & a + 3 <= 6 & 0 <= b & b + 2 <= 9 & 2 <= c & c + 4 <= 9
    & (a + 3 <= b | b + 2 <= a)
    & (a + 3 <= c | c + 4 <= a)
    & (b + 2 <= c | c + 4 <= b)
}
