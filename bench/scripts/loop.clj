; a counting loop with arithmetic, of @N@ rounds
(future
  (println
    (loop [i 0 acc 0]
      (if (< i @N@)
        (recur (inc i) (rem (+ (* acc 31) (quot i 3) 7) 1000003))
        acc))))
