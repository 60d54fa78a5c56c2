; eight threads send @N@ actions each to four agents, one after the other; the last says what they hold once all have run
(def a (agent 0))
(def b (agent 0))
(def c (agent 0))
(def d (agent 0))
(defn work []
  (loop [i 0]
    (if (< i @N@)
      (do
        (send a + 1)
        (send b + 2)
        (send c + 3)
        (send d + 4)
        (recur (+ i 4)))
      nil)))
(defn report []
  (if (= (+ @a @b @c @d) (* 20 @N@)) (println @a @b @c @d) (recur)))
(future (work))
(future (work))
(future (work))
(future (work))
(future (work))
(future (work))
(future (work))
(future (work) (report))
