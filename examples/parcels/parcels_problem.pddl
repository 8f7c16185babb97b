; Market and school have to be served, the harbour would be nice. The school would like its lunch by 10. What a later
; lunch costs is told in pieces: nothing up to 10, from 2 to 12 up to 20, and 20 from there on.
(define (problem morning)
(:domain parcels)
(:requirements :preferences :constraints :time-costs)
(:objects depot market school harbour - place)
(:init
  (stands depot)
  (= (way depot market) 6)
  (= (way market school) 8)
  (= (way market harbour) 9)
  (= (way school harbour) 11))
(:goal (and (delivered market) (delivered school) (preference far (delivered harbour))))
(:constraints (preference early (within 10 (delivered school))))
(:time-costs (lunch (delivered school) (10 0 0) (20 2 12) (30 20 20)))
(:metric minimize (+
  (total-time)
  (* 40 (is-violated far))
  (* 5 (is-violated early))
  (time-cost lunch))))
