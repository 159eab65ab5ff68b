;;; drive.el --- drives `ga144 dap' by dap-mode in batch -*- lexical-binding: t -*-

;; SOURCE=FILE LINE=NUMBER emacs -Q --batch -l drive.el: sets a breakpoint, makes a step, undoes it, and returns to the load. The start-up
;; file is that of docs/EDITORS.md, in an empty home; `ga144' is on the PATH. The last line is `dap: ended 0' if all is well.

;;; Code:

(setq user-emacs-directory (file-name-as-directory (make-temp-file "dap-emacs" t))
      package-user-dir (expand-file-name "elpa" user-emacs-directory)
      package-directory-list '("/usr/share/emacs/site-lisp/elpa"))
(package-initialize)

(defconst top (expand-file-name "../.." (file-name-directory load-file-name)))

(defun start-up-lines ()
  "The forms that docs/EDITORS.md gives for Emacs, with this checkout as /PATH."
  (with-temp-buffer
    (insert-file-contents (expand-file-name "docs/EDITORS.md" top))
    (re-search-forward "^| Emacs |.*$")
    (let ((row (match-string 0)) (from 0) forms)
      (while (string-match "`\\((load [^`]*)\\)`" row from)
        (push (replace-regexp-in-string "/PATH" top (match-string 1 row) t t) forms)
        (setq from (match-end 0)))
      (mapconcat #'identity (nreverse forms) "\n"))))

(let ((file (expand-file-name "~/.emacs")))
  (write-region (start-up-lines) nil file nil 'quiet)
  (load file nil t t))

(defvar source (getenv "SOURCE"))
(defvar line (string-to-number (getenv "LINE")))

(defun say (&rest words)
  (princ (concat "dap: " (mapconcat (lambda (it) (format "%s" it)) words " ") "\n")))

(defun demand (holds &rest words)
  (unless holds
    (apply #'say words)
    (kill-emacs 1)))

(defun await (what is-so)
  "Wait until IS-SO returns true. WHAT is the name of the condition."
  (let ((end (+ (float-time) 20)))
    (while (not (funcall is-so))
      (demand (< (float-time) end) "late:" what)
      (accept-process-output nil 0.02))))

(defun stopped-line (session)
  "Wait until SESSION is stopped, and return the number of the line."
  (await "a stop" (lambda () (and (dap--debug-session-thread-id session) (dap--debug-session-active-frame session))))
  (gethash "line" (dap--debug-session-active-frame session)))

(defun go (command session)
  (funcall command session)
  (stopped-line session))

(find-file source)
(demand (eq major-mode 'f18-mode) "the mode of the buffer is" major-mode)
(goto-char (point-min))
(forward-line (1- line))
(dap-breakpoint-add)
(dap-debug (cdr (assoc "GA144" dap-debug-template-configurations)))
(let ((session (dap--cur-session)))
  (stopped-line session)
  (dap-continue session (dap--debug-session-thread-id session))
  (demand (= (stopped-line session) line) "stopped on another line than that of the breakpoint")
  (demand (= (go #'dap-next session) (1+ line)) "not on the next line")
  (when (gethash "supportsStepBack" (dap--debug-session-current-capabilities session))
    (demand (= (go #'ga144-step-back session) line) "not back on the line")
    (go #'ga144-reverse-continue session)
    (demand (string-match-p "^rewind " (with-current-buffer (dap--debug-session-output-buffer session) (buffer-string)))
            "no answer to the rollback"))
  (let* ((frame (gethash "id" (dap--debug-session-active-frame session)))
         (scopes (gethash "scopes" (dap-request session "scopes" :frameId frame))))
    (demand (= (length scopes) 6) "scopes:" (length scopes)))
  (dap-disconnect session)
  (await "the end" (lambda () (not (process-live-p (dap--debug-session-proc session)))))
  (say "ended" (process-exit-status (dap--debug-session-proc session))))
;;; drive.el ends here
