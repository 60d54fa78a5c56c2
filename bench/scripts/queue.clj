; one thread sends @N@ actions to an agent, and says what it holds once all have run
(def total (agent 0))
(defn report []
  (if (= @total @N@) (println @total) (recur)))
(future
  (loop [i 0]
    (if (< i @N@)
      (do
        (send total inc)
        (recur (inc i)))
      nil))
  (report))
