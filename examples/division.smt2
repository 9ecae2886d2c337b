; Euclid's division by numerals: a number that leaves 2 by 5 and 3 by 7 leaves 17 by 35, and the quotient by -7 of a number
; from 0 to 6 is 0. The third check asks for another remainder, of which there is none.
; $ ./princess smt examples/division.smt2
; sat
; unsat
; unsat
(declare-const x Int)
(assert (= (mod x 5) 2))
(assert (= (mod x 7) 3))
(check-sat)
(push 1)
(assert (distinct (mod x 35) 17))
(check-sat)
(pop 1)
(declare-const y Int)
(assert (<= 0 y 6))
(assert (not (= (div y (- 7)) 0)))
(check-sat)
