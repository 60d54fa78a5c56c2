; sums of whole numbers, each of which is bound once
(future
  (let [few (+ 1 2 3)
        more (+ few 10 20)
        all (+ few more)]
    (println few more all)))
