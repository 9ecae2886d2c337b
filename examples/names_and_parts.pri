// Two parts that speak of a constant, and the question what lies between them.
// $ ./princess solve examples/names_and_parts.pri
// VALID
// interpolant: -speed + 50 >= 0
\universalConstants {
    int speed;
}

\problem {
    \part[slow] speed <= 50 & \part[fast] speed >= 80 -> false
}

\interpolant { slow; fast }
