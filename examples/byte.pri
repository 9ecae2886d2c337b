// A sum of two bytes fits a byte again, but for one carry.
// $ ./princess solve examples/byte.pri
// VALID
\universalConstants { int[0, 255] x, y; }
\problem { \exists int[0, 255] z; (x + y = z | x + y = z + 256) }
