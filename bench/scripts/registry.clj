; a vector in a ref, which @N@ transactions make longer by one
(def names (ref []))
(future
  (loop [i 0]
    (when (< i @N@)
      (dosync (alter names conj i))
      (recur (inc i))))
  (println (count @names) (peek @names)))
