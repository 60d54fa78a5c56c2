; @N@ reads of a ref that holds a vector of 60,000 numbers, in one transaction
(def numbers (ref []))
(defn put [old new] new)
(future
  (let [all (loop [i 0 v []]
              (if (< i 60000)
                (recur (inc i) (conj v i))
                v))]
    (dosync (alter numbers put all)))
  (println
    (dosync
      (loop [i 0 sum 0]
        (if (< i @N@)
          (recur (inc i) (+ sum (nth @numbers 17)))
          sum)))))
