;;; f18-mode.el --- Source of the GA144's nodes -*- lexical-binding: t -*-

;; Words stand apart by blanks, so each is matched between blanks, and not by word syntax.

;;; Code:

(defconst f18-opcodes
  '(";" "ex" "@p" "@+" "@b" "@" "!p" "!+" "!b" "!" "+*" "2*" "2/" "-" "inv"
    "invert" "+" "and" "or" "xor" "drop" "dup" "pop" "over" "a" "." "nop"
    "push" "b!" "a!")
  "Words that are opcodes.")

(defconst f18-controls
  '("begin" "for" "again" "until" "-until" "next" "*next" "unext" "while"
    "-while" "repeat" "if" "-if" "ahead" "else" "then")
  "Words that begin or end a control structure.")

(defconst f18-directives
  '(":" "org" "/p" "/a" "/b" ".." "+cy" "-cy" "node" "constant" "expect" ",")
  "Words that ask for no opcode.")

(defconst f18-ports
  '("right" "down" "left" "up" "io")
  "Names of ports.")

(defun f18--matcher (pattern)
  "A function that finds PATTERN as a whole word, as match 0."
  (lambda (limit)
    (let (found)
      (while (and (not found) (re-search-forward "[^ \t\n]+" limit t))
        (let ((from (match-beginning 0)) (to (match-end 0)))
          (when (save-match-data
                  (string-match-p (concat "\\`\\(?:" pattern "\\)\\'") (buffer-substring-no-properties from to)))
            (set-match-data (list from to))
            (setq found t))))
      found)))

(defun f18--any (words)
  "A function that finds one of WORDS."
  (f18--matcher (regexp-opt words)))

(defconst f18-font-lock-keywords
  `(("\\(?:^\\|[ \t]\\)\\(\\\\\\(?:[ \t].*\\)?$\\)" 1 font-lock-comment-face t)
    ("\\(?:^\\|[ \t]\\)\\(([ \t]\\(?:.*?[ \t]\\)??[^ \t\n]*)\\)\\(?:[ \t]\\|$\\)" 1 font-lock-comment-face t)
    ("\\(?:^\\|[ \t]\\)\\(?::\\|node\\)[ \t]+\\([^ \t\n]+\\)" 1 font-lock-function-name-face)
    (,(f18--any f18-opcodes) 0 font-lock-builtin-face)
    (,(f18--any f18-controls) 0 font-lock-keyword-face)
    (,(f18--any f18-directives) 0 font-lock-preprocessor-face)
    (,(f18--any f18-ports) 0 font-lock-constant-face)
    (,(f18--matcher "[r-][d-][l-][u-]") 0 font-lock-constant-face)
    (,(f18--matcher "'.+") 0 font-lock-variable-name-face)
    (,(f18--matcher "-?\\(?:0x[0-9a-fA-F]+\\|[0-9]+\\)") 0 font-lock-constant-face))
  "What `f18-mode' shows of each word.")

;;;###autoload
(define-derived-mode f18-mode prog-mode "F18A"
  "Major mode for source of the GA144's nodes."
  (setq-local comment-start "\\ ")
  (setq-local comment-start-skip "\\\\[ \t]+")
  (setq-local comment-end "")
  (setq-local font-lock-defaults '(f18-font-lock-keywords t))
  (setq-local imenu-generic-expression '(("Nodes" "^node[ \t]+\\([0-9]+\\)" 1) ("Labels" "\\(?:^\\|[ \t]\\):[ \t]+\\([^ \t\n]+\\)" 1))))

;;;###autoload
(add-to-list 'auto-mode-alist '("\\.f18\\'" . f18-mode))

(provide 'f18-mode)
;;; f18-mode.el ends here
