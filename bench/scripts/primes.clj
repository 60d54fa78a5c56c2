; how many primes lie below @N@, by a sieve: a vector of which numbers are crossed out
(defn blank [n]
  (loop [i 0 v []]
    (if (< i n) (recur (inc i) (conj v false)) v)))
(defn crossed [v n step]
  (loop [i (* step step) v v]
    (if (< i n) (recur (+ i step) (assoc v i true)) v)))
(defn sieved [n]
  (loop [step 2 v (blank n)]
    (if (< (* step step) n)
      (recur (inc step) (if (nth v step) v (crossed v n step)))
      v)))
(defn left [v n]
  (loop [i 2 found 0]
    (if (< i n)
      (recur (inc i) (if (nth v i) found (inc found)))
      found)))
(future
  (println (left (sieved @N@) @N@)))
