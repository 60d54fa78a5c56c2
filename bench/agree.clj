;; agree.clj SCRIPTS [exact]: runs each line of the file as a script of its own, its futures one after the other, and prints for
;; each how it ended, "ok" or the exception, and what it printed. With the word `exact` a difference that fits into 64 bits is no
;; overflow: Clojure's own `-` adds the negated number, which the least one doesn't have.
(def exact? (= "exact" (second *command-line-args*)))
(defn minus
  ([x] (- x))
  ([x y] (let [d (-' x y)]
           (if (<= Long/MIN_VALUE d Long/MAX_VALUE) (long d) (throw (ArithmeticException. "long overflow")))))
  ([x y & more] (reduce minus (minus x y) more)))
(defn run-one [line]
  (let [space (create-ns (gensym "script")) sink (java.io.StringWriter.)]
    (binding [*ns* space *out* sink *err* sink]
      (let [ended (try
                    (refer 'clojure.core :exclude (if exact? '[future -] '[future]))
                    (when exact? (intern space '- minus))
                    (intern space (with-meta 'future {:macro true})
                            (fn [_ _ & body] `(deref (clojure.core/future ~@body))))
                    (doseq [form (read-string (str "[" line "\n]"))] (eval form))
                    "ok"
                    (catch java.util.concurrent.ExecutionException e (str "fault " (.getMessage e)))
                    (catch Throwable e (str "refused " (.getMessage (or (.getCause e) e)))))]
        (remove-ns (ns-name space))
        [ended (str sink)]))))
(doseq [line (line-seq (clojure.java.io/reader (first *command-line-args*)))]
  (prn (run-one line)))
(shutdown-agents)
