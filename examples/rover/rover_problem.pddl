; Ways that aren't told aren't there: no road leads from the base to the lake.
(define (problem lake)
(:domain rover)
(:objects base hill lake - place)
(:init
  (stands base)
  (dock hill)
  (= (battery) 16)
  (= (way base hill) 6) (= (way hill base) 6)
  (= (way hill lake) 9) (= (way lake hill) 9))
(:goal (visited lake)))
