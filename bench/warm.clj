;; warm.clj SCRIPT WARM RUNS: compiles the script once, runs its futures WARM times, and then RUNS times with a clock.
;; Refs, atoms and agents get their opening values again before each run. Prints the nanoseconds of the best timed run.
(ns warm (:refer-clojure :exclude [future]))
(def bodies (atom []))
(defmacro future [& body] `(swap! warm/bodies conj (fn [] ~@body)))
(let [[path warm runs] *command-line-args*
      sink (java.io.StringWriter.)]
  (binding [*ns* (create-ns 'script) *out* sink]
    (refer 'clojure.core :exclude '[future])
    (refer 'warm :only '[future])
    (load-reader (java.io.FileReader. ^String path)))
  (let [cells (for [[_ v] (ns-interns 'script) :let [r @v] :when (instance? clojure.lang.IDeref r)] [r @r])
        opening (doall cells)
        again (fn [r v]
                (cond
                  (instance? clojure.lang.Ref r) (dosync (ref-set r v))
                  (instance? clojure.lang.Atom r) (reset! r v)
                  :else (do (send r (fn [_] v)) (await r))))
        once (fn []
               (doseq [[r v] opening] (again r v))
               (let [t (System/nanoTime)]
                 (binding [*out* sink]
                   (doseq [f (mapv #(clojure.core/future-call %) @bodies)] @f))
                 (- (System/nanoTime) t)))]
    (dotimes [_ (Long/parseLong warm)] (once))
    (println (apply min (repeatedly (Long/parseLong runs) once)))
    (flush)
    (shutdown-agents)))
