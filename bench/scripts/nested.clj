; @N@ rounds over a vector of 100 numbers: each reads every number and changes it
(defn turned [v i]
  (loop [j 0 v v]
    (if (< j (count v))
      (recur (inc j) (assoc v j (rem (+ (nth v j) i j) 1009)))
      v)))
(future
  (println
    (loop [i 0 v (loop [j 0 v []] (if (< j 100) (recur (inc j) (conj v j)) v))]
      (if (< i @N@)
        (recur (inc i) (turned v i))
        v))))
