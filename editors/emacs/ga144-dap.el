;;; ga144-dap.el --- ga144 in dap-mode -*- lexical-binding: t -*-

;; `M-x dap-debug' and then `GA144' launches the source of the buffer. `ga144-step-back' and `ga144-reverse-continue' go back, which
;; dap-mode has no commands for.

;;; Code:

(require 'dap-mode)
;; dap-mode reads variables of dap-ui, and doesn't load it.
(require 'dap-ui)

(defgroup ga144 nil "The debugger of the GA144." :group 'tools)

(defcustom ga144-dap-command '("ga144" "dap")
  "The words of the server."
  :type '(repeat string))

(defun ga144-dap--filled (conf)
  "CONF with the server, and with the buffer's file where it names no program."
  (setq conf (plist-put conf :dap-server-path ga144-dap-command))
  (if (plist-get conf :program) conf (plist-put conf :program (buffer-file-name))))

(dap-register-debug-provider "ga144" #'ga144-dap--filled)
(dap-register-debug-template "GA144" (list :type "ga144" :request "launch" :name "GA144" :program nil))

;; the console prints the steps that a step back removes
(setq dap-output-buffer-filter (append '("console") dap-output-buffer-filter))

(defun ga144-step-back (session)
  "Roll back the last line of the thread's node in SESSION, with all that depends on it."
  (interactive (list (dap--cur-session-or-die)))
  (dap--step "stepBack" session))

(defun ga144-reverse-continue (session)
  "Roll the thread's node in SESSION back to its newest breakpoint, with all that depends on its later steps."
  (interactive (list (dap--cur-session-or-die)))
  (dap--step "reverseContinue" session))

(provide 'ga144-dap)
;;; ga144-dap.el ends here
