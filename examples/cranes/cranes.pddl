; Two cranes hoist boxes from the quay to a deck that has room for one; a box is stowed before the next comes down.
(define (domain cranes)
(:requirements :typing :durative-actions)
(:types crane box)
(:predicates (idle ?c - crane) (on-quay ?b - box) (on-deck ?b - box) (deck-free) (stowed ?b - box))
(:durative-action hoist
  :parameters (?c - crane ?b - box)
  :duration (= ?duration 3)
  :condition (and (at start (idle ?c)) (at start (on-quay ?b)) (at end (deck-free)))
  :effect (and
    (at start (not (idle ?c)))
    (at start (not (on-quay ?b)))
    (at end (not (deck-free)))
    (at end (on-deck ?b))
    (at end (idle ?c))))
(:action stow
  :parameters (?b - box)
  :precondition (on-deck ?b)
  :effect (and (not (on-deck ?b)) (stowed ?b) (deck-free))))
