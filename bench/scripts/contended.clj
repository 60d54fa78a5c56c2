; eight threads add 1 to one ref, @N@ times each; the last says what it holds once all have ended
(def r (ref 0))
(def ended (ref 0))
(defn work []
  (loop [i 0]
    (if (< i @N@)
      (do
        (dosync (alter r inc))
        (recur (inc i)))
      nil))
  (dosync (alter ended inc)))
(defn report []
  (if (= (dosync @ended) 8) (println @r) (recur)))
(future (work))
(future (work))
(future (work))
(future (work))
(future (work))
(future (work))
(future (work))
(future (work) (report))
