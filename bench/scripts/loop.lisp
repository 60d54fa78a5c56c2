; what loop.clj does
(defun turns (n)
  (let ((i 0) (acc 0))
    (loop while (< i n)
          do (setf acc (rem (+ (* acc 31) (truncate i 3) 7) 1000003)
                   i (+ i 1)))
    acc))
(format t "~a~%" (turns @N@))
