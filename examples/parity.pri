// A loop that keeps parity. The state before the loop is some double, and the property asks that it is never odd.
// $ ./princess solve examples/parity.pri
// VALID
// interpolant: \exists int k0; x = 2*k0
\universalConstants { int x, y, z; }
\problem { \part[l] (x = 2*y) & \part[r] (x = 2*z + 1) -> false }
\interpolant { l; r }
