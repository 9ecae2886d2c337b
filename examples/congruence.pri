// If f leaves x as it is, so do two uses of f.
// $ ./princess solve examples/congruence.pri
// VALID
\universalConstants { int x; }
\functions { int f(int); }
\problem { f(x) = x -> f(f(x)) = x }
