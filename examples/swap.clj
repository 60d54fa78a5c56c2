; a counter of hits and a registry, each in an atom, changed by two threads at once
(ns hits)

(def hits (atom 0))
(def pages (atom []))

(defn has [names name]
  (loop [i 0]
    (cond
      (= i (count names)) false
      (= (nth names i) name) true
      true (recur (inc i)))))

(defn with [names name]
  (if (has names name) names (conj names name)))

(defn visit [name]
  (swap! pages with name)
  (swap! hits inc))

(future
  (visit :home)
  (visit :news)
  (visit :home)
  (println "hits" (visit :home)))

(future
  (visit :home)
  (println "hits" (visit :map)))
