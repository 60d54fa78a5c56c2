; one thread commits @N@ transactions, each of which alters one ref
(def r (ref 0))
(future
  (loop [i 0]
    (if (< i @N@)
      (do
        (dosync (alter r inc))
        (recur (inc i)))
      nil))
  (println @r))
