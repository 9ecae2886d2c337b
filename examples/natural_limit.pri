// The values of the type nat are 0, 1, 2, .. Which of them are at most x + 3, whatever x from 0 on is?
// $ ./princess solve examples/natural_limit.pri
// VALID
// constraint: -a + 3 >= 0 & a >= 0
// solution: a = 0
\existentialConstants { nat a; }
\problem { \forall int x; (x >= 0 -> x + 3 >= a) }
