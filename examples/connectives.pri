// `->` binds tighter than `<->`, and a chain of `<->` is grouped to the right.
// $ ./princess solve examples/connectives.pri
// VALID
\problem {
    7 >= 7 -> 3 != 4 <-> (5 > 9 | 10 <= 10) <-> true
}
