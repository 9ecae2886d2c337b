; Which named assertions does the check need? `smt --unused` asks it again without each of them.
; $ ./princess smt examples/unused.smt2 --unused
; unsat
(set-logic QF_LIA)
(declare-const low Int)
(declare-const high Int)
(declare-const i Int)
(assert (! (< low high) :named ordered))
(assert (! (<= low i) :named from))
(assert (! (< i low) :named to))
(check-sat)
