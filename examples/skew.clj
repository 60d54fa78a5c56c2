; two threads each read both refs, and each sets one of them: both commit, though no order of the two one after the other
; leaves both refs at 0; that is write skew, which Clojure has too
(def a (ref 1))
(def b (ref 1))
(future (dosync (when (= 2 (+ @a @b)) (alter a dec))))
(future (dosync (when (= 2 (+ @a @b)) (alter b dec))))
