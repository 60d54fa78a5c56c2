; the average of some numbers, also of none: a fault to try `--explain` on
(defn sum [numbers i total]
  (if (= i (count numbers))
    total
    (recur numbers (inc i) (+ total (nth numbers i)))))

(defn average [numbers]
  (quot (sum numbers 0 0) (count numbers)))

(future
  (println (average [1 2 6]))
  (println (average [])))
