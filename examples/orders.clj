; orders wait in the mailboxes of two clerks; each action takes the goods from the stock in a transaction, prints what came of it and tells the
; log; the log hears of an order when its action is over, and of one that faults not at all
(ns orders)

(def stock (ref [5 2]))
(def sold (ref 0))
(def log (agent []))
(def anna (agent 0))
(def bert (agent 0 :error-mode :continue))

(defn noted [lines order left]
  (conj lines [order left]))

(defn less [counts k n]
  (assoc counts k (- (nth counts k) n)))

(defn work "an order of n pieces of good k; how many orders the clerk has done then" [done order k n]
  (if (dosync
        (when (>= (nth @stock k) n)
          (alter stock less k n)
          (alter sold + n)
          (send log noted order (nth @stock k))
          true))
    (do
      (println order "done")
      (inc done))
    (do
      (println order "not enough")
      done)))

(future
  (send anna work :rice 0 3)
  (send bert work :beans 1 1)
  (send anna work :more 0 3)
  (send bert work :salt 2 1))
