// Division. Whoever has q as the quotient of n by 4, rounded down, has 4*q <= n <= 4*q + 3. The mean of two numbers, computed as
// low + (high - low)/2, is between them.
// $ ./princess solve examples/division.pri
// VALID
\universalConstants { int low, high, half, mean; }
\problem {
    low <= high
    & 2*half <= high - low & high - low <= 2*half + 1
    & mean = low + half
    -> low <= mean & mean <= high
}
