(define (domain slippery-gripper)
  (:requirements :negative-preconditions :conditional-effects :probabilistic-effects)
  (:predicates (gripper-dry) (holding-block) (block-painted))
  (:action pickup
    :parameters ()
    :effect (and (when (gripper-dry) (probabilistic 0.95 (holding-block)))
                 (when (not (gripper-dry)) (probabilistic 0.5 (holding-block)))))
  (:action dry
    :parameters ()
    :effect (probabilistic 0.8 (gripper-dry)))
  (:action paint
    :parameters ()
    :effect (block-painted))
  (:action feel
    :parameters ()
    :observe (holding-block)))
