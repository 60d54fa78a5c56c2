; four threads add to one ref and to one atom, and each prints what it added itself
; whichever goes first, the sums are the same: the order in which `commute` and `swap!` add doesn't matter

(def total (ref 0))
(def calls (atom 0))

(defn add [n step]
  (loop [i 0 own 0]
    (if (< i n)
      (do
        (dosync (commute total + step))
        (swap! calls inc)
        (recur (inc i) (+ own step)))
      own)))

(future (println (add 25 1)))
(future (println (add 25 2)))
(future (println (add 25 3)))
(future (println (add 25 4)))
