; @N@ calls of one function, each of which calls another
(defn mix [a b]
  (rem (+ (* a 31) b) 1000003))
(defn turn [acc i]
  (mix acc (quot i 3)))
(future
  (println
    (loop [i 0 acc 0]
      (if (< i @N@)
        (recur (inc i) (turn acc i))
        acc))))
