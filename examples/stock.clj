; a stock of goods in a ref, as a vector of counts: what is asked for is taken where there is enough
(def stock (ref [5 0 2]))
(def sold (ref 0))

(defn has? [counts k n]
  (and (< k (count counts)) (>= (nth counts k) n)))

(defn less [counts k n]
  (assoc counts k (- (nth counts k) n)))

(defn sell "takes n pieces of good k; whether there were so many" [k n]
  (dosync
    (when (has? @stock k n)
      (alter stock less k n)
      (alter sold + n)
      true)))

(defn report [k n]
  (println "sell" n "of" k ":" (cond (sell k n) "done" (< k (count @stock)) "not enough" :else "no such good")))

(future
  (report 0 3)
  (report 1 1)
  (report 2 2)
  (report 7 1)
  (println @stock "left," @sold "sold"))
