;; Works on a grammar in Emacs with the server, and prints what is seen, a line of JSON each.
(package-initialize)
(require 'json)
(require 'eglot)

;; a machine that does other work may take long
(setq eglot-connect-timeout 100 eglot-sync-connect 100 jrpc-default-request-timeout 100)

(defun show (name value)
  (princ (concat (json-encode (vector name value)) "\n")))

(defun wait (holds)
  (let ((end (+ (float-time) 200)))
    (while (and (not (funcall holds)) (< (float-time) end))
      (accept-process-output nil 0.05))))

(defun told (text)
  "The first diagnostic whose text has TEXT: the line and the columns, from 0 on."
  (let ((found nil))
    (dolist (it (flymake-diagnostics) found)
      (when (and (not found) (string-match-p (regexp-quote text) (flymake-diagnostic-text it)))
        (save-excursion
          (goto-char (flymake-diagnostic-beg it))
          (setq found (vector (1- (line-number-at-pos)) (current-column)
                              (+ (current-column)
                                 (- (flymake-diagnostic-end it) (point))))))))))

(defun is-told (text)
  (wait (lambda () (told text)))
  (or (told text) "nothing"))

(defun at (line column)
  (goto-char (point-min))
  (forward-line line)
  (forward-char column))

(defun line (number)
  (save-excursion
    (at number 0)
    (buffer-substring-no-properties (point) (line-end-position))))

(load (getenv "SETTING") nil t)
(find-file (getenv "GRAMMAR"))
(run-hooks 'post-command-hook)
(wait (lambda () (eglot-current-server)))
(show "kind of file" (symbol-name major-mode))
(flymake-start)
(show "conflict" (is-told "shift/reduce conflict"))

(at 5 14)
(xref-find-definitions (xref-backend-identifier-at-point (xref-find-backend)))
(show "definition" (vector (line-number-at-pos) (current-column)))

(at 8 0)
(eglot-rename "amount")
(show "renamed" (vector (line 1) (line 5) (line 6) (line 8) (line 10)))

(at 6 5)
(delete-char 6)
(insert "valeu")
(run-hooks 'post-command-hook)
(eglot--signal-textDocument/didChange)
(flymake-start)
(show "fault" (is-told "this name is neither"))
(set-buffer-modified-p nil)
(kill-emacs 0)
