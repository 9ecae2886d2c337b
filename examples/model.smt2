; Two machines share seven jobs, each of three hours. The second one has at least two jobs more than the first.
; $ ./princess smt examples/model.smt2
; sat
; (
;   (define-fun first () Int 0)
;   (define-fun second () Int 7)
;   (define-fun hours ((x!0 Int)) Int (ite (= x!0 2) 21 0))
;   (define-fun late () Bool true)
; )
; sat
; ((first 2) (second 5) (late false))
(set-logic QF_UFLIA)
(declare-const first Int)
(declare-const second Int)
(declare-fun hours (Int) Int)
(declare-const late Bool)
(assert (and (<= 0 first) (<= 0 second) (= (+ first second) 7)))
(assert (>= second (+ first 2)))
(assert (= (hours 1) (* 3 first)))
(assert (= (hours 2) (* 3 second)))
(assert (= late (> (hours 2) 15)))
(check-sat)
(get-model)
(assert (not late))
(check-sat)
(get-value (first second late))
