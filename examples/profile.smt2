; A slicing profile, in micrometres, that asks for what no printer can do:
; the nozzle is at most 400 wide, a layer at most three quarters of it high,
; a wall at most as wide as four layers are high, and yet at least 1300 wide.
(set-option :produce-proofs true)
(set-logic QF_UFLIA)

(declare-fun layer_height () Int)
(declare-fun nozzle_width () Int)
(declare-fun wall () Int)

(assert (<= nozzle_width 400))
(assert (<= (* 4 layer_height) (* 3 nozzle_width))) ; three quarters
(assert (<= wall (* 4 layer_height)))
(assert (>= wall 1300))

(check-sat)
(get-proof)
