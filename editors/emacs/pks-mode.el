;;; pks-mode.el --- Files of the planner pks  -*- lexical-binding: t; -*-

;; (add-to-list 'load-path ".../editors/emacs")
;; (require 'pks-mode)

;; C-c C-c asks pks-why about the file; next-error goes to the place of a refusal.

;;; Code:

(require 'lisp-mode)
(require 'compile)

(defgroup pks nil "Files of the planner pks." :group 'languages)

(defcustom pks-why-command (if (executable-find "pks-why") "pks-why" "tools/why")
  "The command that says why a file is refused."
  :type 'string :group 'pks)

(defconst pks-sections
  '("pks" "domain" "problem" "world" "types" "objects" "predicates" "functions"
    "action" "cost" "params" "pre" "effects" "senses" "knows" "init" "goal"
    "true" "values"))

(defconst pks-forms
  '("set" "unset" "clear" "assign" "when" "sense" "sense-value" "sense-all"
    "kf" "kw" "kv" "kx" "lcw" "k" "if" "not-derived" "at-start" "always" "once"))

(defconst pks-logic '("not" "="))

(defun pks--heads (words)
  "A pattern for WORDS behind the parenthesis that opens their list."
  (concat "([ \t]*\\(" (regexp-opt words) "\\)\\(?:[ \t\r\n()]\\|$\\)"))

(defconst pks-font-lock
  `((,(pks--heads pks-sections) 1 font-lock-keyword-face)
    (,(pks--heads pks-forms) 1 font-lock-function-name-face)
    (,(pks--heads pks-logic) 1 font-lock-builtin-face)
    ("\\?[A-Za-z][A-Za-z0-9_-]*" . font-lock-variable-name-face)
    ("[ \t(]\\(_\\|[0-9]+\\)[ \t)]" 1 font-lock-constant-face)))

(defvar pks-mode-map
  (let ((map (make-sparse-keymap)))
    (define-key map (kbd "C-c C-c") #'pks-why)
    map))

(defun pks-why ()
  "Say why the file is refused, and how to mend it."
  (interactive)
  (save-buffer)
  (compile (concat pks-why-command " " (shell-quote-argument buffer-file-name))))

;;;###autoload
(define-derived-mode pks-mode lisp-data-mode "pks"
  "A mode for files of the planner pks."
  (setq-local font-lock-defaults '(pks-font-lock nil nil (("?" . "w") ("=" . "w") ("-" . "w") ("_" . "w"))))
  (setq-local comment-start "; ")
  (dolist (head '(domain problem world action))
    (put head 'lisp-indent-function 'defun)))

;;;###autoload
(add-to-list 'auto-mode-alist '("\\.pks\\'" . pks-mode))

(provide 'pks-mode)
;;; pks-mode.el ends here
