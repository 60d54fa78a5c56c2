; a vector of @N@ numbers, built one at a time and summed by place
(future
  (let [all (loop [i 0 v []]
              (if (< i @N@)
                (recur (inc i) (conj v i))
                v))]
    (println
      (loop [i 0 sum 0]
        (if (< i @N@)
          (recur (inc i) (+ sum (nth all i)))
          sum)))))
