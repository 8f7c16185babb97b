; A tank between two pumps: one fills it, the other delivers from it, and both may run at once.
(define (domain plant)
(:requirements :fluents :durative-actions :duration-inequalities :continuous-effects)
(:predicates (inflow-off) (outflow-off))
(:functions (level) (delivered))
(:durative-action fill
  :parameters ()
  :duration (and (>= ?duration 1) (<= ?duration 10))
  :condition (and (at start (inflow-off)) (over all (<= (level) 20)))
  :effect (and
    (at start (not (inflow-off)))
    (at end (inflow-off))
    (increase (level) (* #t 3))))
(:durative-action deliver
  :parameters ()
  :duration (and (>= ?duration 1) (<= ?duration 10))
  :condition (and (at start (outflow-off)) (over all (>= (level) 2)))
  :effect (and
    (at start (not (outflow-off)))
    (at end (outflow-off))
    (decrease (level) (* #t 2))
    (increase (delivered) (* #t 2)))))
