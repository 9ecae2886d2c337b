// A puzzle: each letter is a digit, no two the same, and SEND + MORE = MONEY.
// $ ./princess find examples/send_more_money.pri
// solution: s = 9, e = 5, n = 6, d = 7, m = 1, o = 0, r = 8, y = 2
\existentialConstants { int[1, 9] s; int[0, 9] e, n, d; int[1, 9] m; int[0, 9] o, r, y; }
\problem {
    1000*s + 100*e + 10*n + d + 1000*m + 100*o + 10*r + e = 10000*m + 1000*o + 100*n + 10*e + y
    & s != e & s != n & s != d & s != m & s != o & s != r & s != y
    & e != n & e != d & e != m & e != o & e != r & e != y
    & n != d & n != m & n != o & n != r & n != y
    & d != m & d != o & d != r & d != y
    & m != o & m != r & m != y
    & o != r & o != y
    & r != y
}
