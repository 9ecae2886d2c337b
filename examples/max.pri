// The greater of two numbers is one of them, and no less than both.
// $ ./princess solve examples/max.pri
// VALID
\universalConstants { int x, y; }
\problem {
    \max(x, y) >= x & \max(x, y) >= y & (\max(x, y) = x | \max(x, y) = y)
}
