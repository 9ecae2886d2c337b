// A file that is refused, `Syntax` at the offset of the brace, since no formula ends behind a plus.
// $ ./princess solve examples/refused.pri
// refused: Syntax at 189
\problem {
    1 +
}
