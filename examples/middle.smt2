; The middle of two indices lies between them. A defined function is written out where it is used.
; $ ./princess smt examples/middle.smt2
; unsat
(set-logic LIA)
(declare-const low Int)
(declare-const high Int)
(declare-const middle Int)
(define-fun is_half ((q Int) (x Int)) Bool (<= 0 (- x (* 2 q)) 1))
(define-fun is_between ((x Int)) Bool (and (<= low x) (<= x high)))
(assert (<= low high))
(assert (is_half middle (+ low high)))
(assert (not (is_between middle)))
(check-sat)
