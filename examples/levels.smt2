; A number from 0 to 9: at one level an equation for it, and then, at another, a truth by the same name.
; $ ./princess smt examples/levels.smt2
; unsat
; unsat
; sat
(declare-const x Int)
(assert (<= 0 x 9))
(push 1)
(declare-const y Int)
(assert (= (* 2 y) (+ x 11)))
(assert (< y 6))
(check-sat)
(pop 1)
(declare-const y Bool)
(assert (= y (> x 4)))
(check-sat-assuming (y (< x 5)))
(check-sat)
