; seven threads add up four refs in @N@ transactions each, while an eighth moves between two of them; it says what they hold once all have ended
(def a (ref 10))
(def b (ref 20))
(def c (ref 30))
(def d (ref 40))
(def ended (ref 0))
(defn look []
  (loop [i 0 sum 0]
    (if (< i @N@)
      (recur (inc i) (dosync (+ @a @b @c @d)))
      nil))
  (dosync (alter ended inc)))
(defn move []
  (loop [i 0]
    (if (< i @N@)
      (do
        (dosync (alter a - 1) (alter b + 1))
        (recur (inc i)))
      nil)))
(defn report []
  (if (= (dosync @ended) 7) (println (dosync (+ @a @b @c @d))) (recur)))
(future (look))
(future (look))
(future (look))
(future (look))
(future (look))
(future (look))
(future (look))
(future (move) (report))
