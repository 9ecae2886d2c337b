; A remainder by a quantifier: x is 1 modulo 4, and x divided by 10 is 2. So x is 21, 25 or 29.
; $ ./princess smt examples/remainder.smt2
; unsat
(declare-const x Int)
(assert (exists ((q Int)) (= x (+ (* 4 q) 1))))
(assert (exists ((q Int)) (and (<= 0 (- x (* 10 q)) 9) (= q 2))))
(assert (not (or (= x 21) (= x 25) (= x 29))))
(check-sat)
