; The terms that a `let` binds do not see one another: y is the declared x and 1, while x is 5 in the body.
; $ ./princess smt examples/shadow.smt2
; sat
; unsat
(declare-const x Int)
(assert (let ((y (+ x 1)) (x 5)) (and (= y 3) (= x 5))))
(check-sat)
(assert (< x 2))
(check-sat)
