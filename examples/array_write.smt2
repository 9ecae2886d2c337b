; A write to an array, read as a function: where the index differs, the cell is as it was.
; $ ./princess smt examples/array_write.smt2
; unsat
(set-logic UFLIA)
(declare-fun a (Int) Int)
(declare-fun b (Int) Int)
(declare-const i Int)
(declare-const k Int)
(declare-const v Int)
(assert (= (b i) v))
(assert (forall ((j Int)) (=> (distinct j i) (= (b j) (a j)))))
(assert (distinct (b k) (ite (= k i) v (a k))))
(check-sat)
