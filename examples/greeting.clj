; a greeting in numbers: a count that grows by one at each line
(future
  (let [one 1]
    (println one)
    (let [two (+ one 1)
          three (+ two 1)]
      (println one two)
      (println one two three)
      (println (let [one 100] (+ one two)) one))))
