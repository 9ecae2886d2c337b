// Three jobs of 3, 2 and 4 hours on one machine within 9 hours: no hour is left, and the second is to end before hour 6 and not to begin
// before hour 3. `solve` would print all such schedules, `find` prints one.
// $ ./princess find examples/tight_schedule.pri
// solution: a = 0, b = 3, c = 5
\existentialConstants { nat a, b, c; }
\problem {
    a + 3 <= 9 & b + 2 <= 6 & c + 4 <= 9 & b >= 3 & c >= 1
    & (a + 3 <= b | b + 2 <= a)
    & (a + 3 <= c | c + 4 <= a)
    & (b + 2 <= c | c + 4 <= b)
}
