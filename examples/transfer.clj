; two balances, and a transfer in one transaction
(def savings (ref 100))
(def checking (ref 20))
(future
  (dosync
    (alter savings - 30)
    (alter checking + 30))
  (println @savings @checking))
