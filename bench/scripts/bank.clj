; @N@ transfers by one thread, each between two of 1,000 accounts, and what they hold together at the end
@ACCOUNTS@
(future
  (let [accounts [@NAMES@]]
    (loop [i 0]
      (if (< i @N@)
        (do
          (dosync
            (alter (nth accounts (rem (* i 7) 1000)) - 1)
            (alter (nth accounts (rem (+ (* i 13) 500) 1000)) + 1))
          (recur (inc i)))
        nil))
    (println (loop [i 0 all 0]
               (if (< i 1000)
                 (recur (inc i) (+ all @(nth accounts i)))
                 all)))))
