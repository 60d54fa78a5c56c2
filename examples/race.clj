; two threads count up the same ref
; in rounds the second would have to run again; the plays of `race.args` let the first commit before the second begins
(def c (ref 0))
(future (dosync (alter c inc)))
(future (dosync (alter c inc)))
