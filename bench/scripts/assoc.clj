; @N@ changes of a vector of 60,000 numbers at places here and there; the first vector is kept
(future
  (let [first-one (loop [i 0 v []]
                    (if (< i 60000)
                      (recur (inc i) (conj v i))
                      v))
        last-one (loop [i 0 place 1 v first-one]
                   (if (< i @N@)
                     (recur (inc i) (mod (+ (* place 7919) 13) 60000) (assoc v place i))
                     v))]
    (println (nth first-one 7932) (nth last-one 7932) (count last-one))))
