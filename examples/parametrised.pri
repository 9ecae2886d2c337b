// Whatever the three inputs from 0 to 7 are, how large do the two limits on their sum have to be, and how large is enough?
// $ ./princess solve examples/parametrised.pri
// VALID
// constraint: -least >= 0 & most - 21 >= 0
// solution: least = 0, most = 21
\existentialConstants { int least, most; }
\universalConstants { int a, b, c; }
\problem {
    0 <= a & a <= 7 & 0 <= b & b <= 7 & 0 <= c & c <= 7 -> least <= a + b + c & a + b + c <= most
}
