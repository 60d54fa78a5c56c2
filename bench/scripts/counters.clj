; 10,000 counters in the vector of one ref, of which @N@ transactions count one each
(def counts (ref []))
(defn put [old new] new)
(defn bump [all k] (assoc all k (inc (nth all k))))
(future
  (let [zeros (loop [i 0 v []]
                (if (< i 10000)
                  (recur (inc i) (conj v 0))
                  v))]
    (dosync (alter counts put zeros)))
  (loop [i 0 k 1]
    (when (< i @N@)
      (dosync (alter counts bump k))
      (recur (inc i) (mod (+ (* k 7919) 13) 10000))))
  (println (count @counts) (nth @counts 1)))
