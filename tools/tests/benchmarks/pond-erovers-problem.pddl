(define (problem roverprob)
  (:domain Rover)
  (:objects general - lander
            rover0 - rover
            rover0store - store
            waypoint0 waypoint1 waypoint2 - waypoint)
  (:init (and
    (visible waypoint0 waypoint1) (visible waypoint1 waypoint0)
    (visible waypoint1 waypoint2) (visible waypoint2 waypoint1)
    (can_traverse rover0 waypoint0 waypoint1) (can_traverse rover0 waypoint1 waypoint0)
    (can_traverse rover0 waypoint1 waypoint2) (can_traverse rover0 waypoint2 waypoint1)
    (at_lander general waypoint0)
    (at rover0 waypoint1)
    (store_of rover0store rover0)
    (empty rover0store)
    (oneof (at_soil_sample waypoint0) (at_soil_sample waypoint1) (at_soil_sample waypoint2))))
  (:goal (communicated_soil_data)))
