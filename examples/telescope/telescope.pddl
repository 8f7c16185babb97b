; An instrument observes one target after another, each in sunlight alone.
(define (domain telescope)
(:requirements :typing :durative-actions)
(:types target)
(:predicates (sunlit) (ready) (seen ?t - target))
(:durative-action observe
  :parameters (?t - target)
  :duration (= ?duration 4)
  :condition (and (at start (ready)) (over all (sunlit)))
  :effect (and
    (at start (not (ready)))
    (at end (ready))
    (at end (seen ?t)))))
