; A courier carries parcels from place to place.
(define (domain parcels)
(:requirements :typing :fluents :durative-actions)
(:types place)
(:predicates (stands ?p - place) (delivered ?p - place))
(:functions (way ?from ?to - place))
(:durative-action carry
  :parameters (?from ?to - place)
  :duration (= ?duration (way ?from ?to))
  :condition (at start (stands ?from))
  :effect (and
    (at start (not (stands ?from)))
    (at end (stands ?to))
    (at end (delivered ?to)))))
