; a vector of @N@ numbers, taken away one at a time
(future
  (let [all (loop [i 0 v []]
              (if (< i @N@)
                (recur (inc i) (conj v i))
                v))]
    (println
      (loop [v all sum 0]
        (if (< 0 (count v))
          (recur (pop v) (+ sum (peek v)))
          sum)))))
