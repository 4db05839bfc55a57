;;; og-mode.el --- Outlines and templates of og -*- lexical-binding: t -*-

;;; Commentary:

;; A major mode, and `og lsp' for eglot: `M-x eglot'.  `og-program' names the program.

;;; Code:

(defgroup og nil "Outlines and templates of og." :group 'languages)

(defcustom og-program "og" "The program." :type 'string :group 'og)

(defvar og-mode-syntax-table
  (let ((table (make-syntax-table)))
    (modify-syntax-entry ?# "<" table)
    (modify-syntax-entry ?\n ">" table)
    (modify-syntax-entry ?_ "w" table)
    table))

(defvar og-font-lock-keywords
  (list
   (cons (regexp-opt '("cobegin" "coend" "await" "begin" "end" "skip" "if" "then" "else" "while" "do" "for" "not"
                       "and" "or" "in" "where" "all" "some" "sum" "mod") 'words)
         'font-lock-keyword-face)
   (cons (regexp-opt '("var" "aux" "const" "let" "template" "process") 'words) 'font-lock-type-face)
   (cons (regexp-opt '("true" "false") 'words) 'font-lock-constant-face)))

;;;###autoload
(define-derived-mode og-mode prog-mode "og"
  "A major mode for outlines and templates."
  (setq-local font-lock-defaults '(og-font-lock-keywords))
  (setq-local comment-start "# ")
  (setq-local comment-end "")
  (setq-local indent-tabs-mode nil)
  (setq-local fill-column 100))

;;;###autoload
(add-to-list 'auto-mode-alist '("\\.ogt?\\'" . og-mode))

(with-eval-after-load 'eglot
  (add-to-list 'eglot-server-programs `(og-mode . (lambda (_) (list og-program "lsp")))))

(provide 'og-mode)
;;; og-mode.el ends here
