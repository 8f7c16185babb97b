; The sun shines from 5 to 10 and from 20 to 25.
(define (problem day)
(:domain telescope)
(:requirements :timed-initial-literals)
(:objects north south - target)
(:init
  (ready)
  (at 5 (sunlit)) (at 10 (not (sunlit)))
  (at 20 (sunlit)) (at 25 (not (sunlit))))
(:goal (and (seen north) (seen south))))
