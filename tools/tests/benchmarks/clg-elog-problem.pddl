(define (problem elog-2)
  (:domain elogistics)
  (:objects pgh bos - city
            pgh-air bos-air - airport
            pgh-po - location
            letter - package
            pgh-truck - truck
            plane - airplane)
  (:init
    (in-city pgh-air pgh) (in-city pgh-po pgh) (in-city bos-air bos)
    (at pgh-truck pgh-po)
    (at plane pgh-air)
    (oneof (at letter pgh-po) (at letter pgh-air)))
  (:goal (and (at letter bos-air))))
