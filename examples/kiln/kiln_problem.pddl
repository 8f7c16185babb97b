(define (problem pot)
(:domain kiln)
(:init (cold) (= (heat) 0))
(:goal (fired)))
