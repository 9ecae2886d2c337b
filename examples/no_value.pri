// No integer is both even and odd.
// $ ./princess solve examples/no_value.pri
// INVALID
\existentialConstants { int x; }
\problem { \exists int h; x = 2*h & \exists int h; x = 2*h + 1 }
