;; whole.clj SCRIPT: the script as it stands in real Clojure, in a JVM of its own: waits for its futures and ends.
(ns script (:refer-clojure :exclude [future]))
(def -running (atom []))
(defmacro future [& body] `(swap! -running conj (clojure.core/future ~@body)))
(load-reader (java.io.FileReader. ^String (first *command-line-args*)))
(doseq [f @-running] @f)
(flush)
(shutdown-agents)
