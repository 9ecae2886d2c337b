; A queue of at most 8 jobs: with more assertions the same question gets another answer.
; $ ./princess smt examples/incremental.smt2
; sat
; unsat
(set-logic QF_LIA)
(declare-const waiting Int)
(declare-const running Int)
(assert (<= 0 waiting))
(assert (<= 0 running 4))
(assert (<= (+ waiting running) 8))
(check-sat)
(assert (> waiting 4))
(assert (= running 4))
(check-sat)
