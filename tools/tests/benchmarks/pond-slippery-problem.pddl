(define (problem slippery-gripper-1)
  (:domain slippery-gripper)
  (:init (and (unknown (gripper-dry)) (not (holding-block)) (not (block-painted))))
  (:goal (and (holding-block) (block-painted))))
