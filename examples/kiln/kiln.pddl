; A kiln must not pass 10 while it warms, and fires at 10 and above.
(define (domain kiln)
(:requirements :fluents :durative-actions :duration-inequalities :continuous-effects)
(:predicates (cold) (fired))
(:functions (heat))
(:durative-action warm
  :parameters ()
  :duration (<= ?duration 10)
  :condition (and (at start (cold)) (over all (<= (heat) 10)))
  :effect (and (at start (not (cold))) (increase (heat) (* #t 7))))
(:action fire
  :parameters ()
  :precondition (>= (heat) 10)
  :effect (fired)))
