; two threads move money between two accounts; each transaction sends a line to a log, and what it moved to a sum
; what a try that runs again had sent is dropped, so each transfer stands in the log once, in the order of the commits
(ns transfers)

(def savings (ref 100))
(def checking (ref 20))
(def log (agent []))
(def moved (agent 0))

(defn noted [lines what amount left]
  (conj lines [what amount left]))

(defn move [what from to amount]
  (dosync
    (if (< @from amount)
      (send log noted what amount :refused)
      (do
        (alter from - amount)
        (alter to + amount)
        (send moved + amount)
        (send log noted what amount @from)))))

(future
  (move :rent savings checking 30)
  (move :boat savings checking 90))

(future
  (move :books checking savings 15))
