; A rover drives on its battery, which drains as it goes and charges at a dock.
(define (domain rover)
(:requirements :typing :fluents :durative-actions :duration-inequalities :continuous-effects)
(:types place)
(:predicates (stands ?p - place) (dock ?p - place) (visited ?p - place))
(:functions (battery) (way ?from ?to - place))
(:durative-action drive
  :parameters (?from ?to - place)
  :duration (= ?duration (way ?from ?to))
  :condition (and (at start (stands ?from)) (over all (>= (battery) 0)))
  :effect (and
    (at start (not (stands ?from)))
    (at end (stands ?to))
    (at end (visited ?to))
    (decrease (battery) (* #t 2))))
(:durative-action charge
  :parameters (?p - place)
  :duration (>= ?duration 1)
  :condition (and
    (at start (dock ?p))
    (over all (stands ?p))
    (over all (<= (battery) 20)))
  :effect (increase (battery) (* #t 5))))
