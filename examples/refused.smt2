; The second check is refused, since y is declared nowhere. The answer to the first one stands before the refusal.
; $ ./princess smt examples/refused.smt2
; unsat
; refused: Undeclared at 276
(set-logic QF_LIA)
(declare-const x Int)
(assert (< 3 x 4))
(check-sat)
(assert (= y 1))
(check-sat)
