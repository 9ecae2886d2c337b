; A dialogue: each command is answered as it comes. After the error, that nothing declares y, it goes on.
; $ ./princess smt - <examples/dialogue.smt2
; success
; success
; success
; success
; (error "line 16, column 20: a symbol that nothing in force declares or defines")
; success
; unsat
; success
; sat
(set-option :print-success true)
(declare-const x Int)
(assert (<= 0 x 9))
(push 1)
(assert (= (* 2 x) y))
(assert (= (* 2 x) 11))
(check-sat)
(pop 1)
(check-sat)
