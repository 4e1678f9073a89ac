;;; nova-mode.el --- Nova, a language for packet code -*- lexical-binding: t -*-

;; Put this folder on `load-path', then (require 'nova-mode).  M-x eglot starts `nova lsp'.

;;; Code:

(defvar nova-mode-syntax-table
  (let ((table (make-syntax-table)))
    (modify-syntax-entry ?/ ". 12" table)
    (modify-syntax-entry ?\n ">" table)
    (modify-syntax-entry ?_ "w" table)
    table)
  "Words and comments of Nova.")

(defconst nova-keywords
  '("layout" "exception" "fun" "and" "let" "if" "else" "unpack" "pack" "raise" "try" "handle" "overlay")
  "Words that begin something.")

;;;###autoload
(define-derived-mode nova-mode prog-mode "Nova"
  "Packet code in Nova."
  (setq-local comment-start "// ")
  (setq-local comment-end "")
  (setq-local indent-tabs-mode nil)
  (setq-local font-lock-defaults
              `(((,(regexp-opt nova-keywords 'words) . font-lock-keyword-face)
                 (,(regexp-opt '("word" "bool" "packed" "unpacked") 'words) . font-lock-type-face)
                 (,(regexp-opt '("sram" "sdram" "scratch") 'words) . font-lock-builtin-face)
                 (,(regexp-opt '("true" "false") 'words) . font-lock-constant-face)))))

;;;###autoload
(add-to-list 'auto-mode-alist '("\\.nova\\'" . nova-mode))

(with-eval-after-load 'eglot
  (add-to-list 'eglot-server-programs '(nova-mode . ("nova" "lsp"))))

(provide 'nova-mode)
;;; nova-mode.el ends here
