; one ticket is left, and two want it
(def tickets (ref 1))
(defn buy []
  (when (pos? @tickets)
    (dosync (alter tickets dec))))
(future (buy))
(future (buy))
