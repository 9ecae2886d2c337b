// A schedule that cannot be: three jobs of 3, 2 and 4 hours on one machine within 8 hours.
// $ ./princess solve examples/no_schedule.pri
// INVALID
\existentialConstants { int a, b, c; }
\problem {
    0 <= a & a + 3 <= 8 & 0 <= b & b + 2 <= 8 & 0 <= c & c + 4 <= 8
    & (a + 3 <= b | b + 2 <= a)
    & (a + 3 <= c | c + 4 <= a)
    & (b + 2 <= c | c + 4 <= b)
}
