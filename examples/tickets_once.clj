; one ticket is left, and two want it: to look and to take it is one transaction
(def tickets (ref 1))
(defn buy []
  (dosync
    (when (pos? @tickets)
      (alter tickets dec))))
(future (buy))
(future (buy))
