// Assumptions that contradict one another: the problem holds whatever it concludes, and `solve --vacuous` says so. Whoever
// meant the guard to be `lo <= i & i < hi`, wrote `hi < lo` for `lo < hi`.
// $ ./princess solve examples/vacuous.pri --vacuous
// VALID
\universalConstants { int lo, hi, i; }
\problem {
  hi < lo & lo <= i & i < hi -> i = 0
}
