; eight threads add 1 to one atom, @N@ times each; the last says what it holds once all have ended
(def hits (atom 0))
(def ended (atom 0))
(defn work []
  (loop [i 0]
    (if (< i @N@)
      (do
        (swap! hits inc)
        (recur (inc i)))
      nil))
  (swap! ended inc))
(defn report []
  (if (= @ended 8) (println @hits) (recur)))
(future (work))
(future (work))
(future (work))
(future (work))
(future (work))
(future (work))
(future (work))
(future (work) (report))
