; eight threads make @N@ transfers each, between two of 900 accounts; the last says what they hold together once all have ended
@ACCOUNTS@
(def ended (ref 0))
(defn work [k]
  (let [accounts [@NAMES@]]
    (loop [i 0]
      (if (< i @N@)
        (do
          (dosync
            (alter (nth accounts (rem (+ (* i 7) (* k 112)) 900)) - 1)
            (alter (nth accounts (rem (+ (* i 13) (* k 225) 450) 900)) + 1))
          (recur (inc i)))
        nil)))
  (dosync (alter ended inc)))
(defn report []
  (if (= (dosync @ended) 8)
    (let [accounts [@NAMES@]]
      (println (loop [i 0 all 0]
                 (if (< i 900)
                   (recur (inc i) (+ all @(nth accounts i)))
                   all))))
    (recur)))
(future (work 0))
(future (work 1))
(future (work 2))
(future (work 3))
(future (work 4))
(future (work 5))
(future (work 6))
(future (work 7) (report))
