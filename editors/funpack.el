;;; funpack.el --- highlighting of theory files -*- lexical-binding: t -*-
;; (load "funpack.el") makes files *.hol open so.
(defvar funpack-keywords
  `((,(regexp-opt '("definition" "typedef" "lemma" "simp" "cong" "constructors" "size" "measure" "fun" "function") 'words)
     . font-lock-keyword-face)
    (,(regexp-opt '("and" "where" "proof" "end" "abs" "rep" "by" "if" "then" "else") 'words) . font-lock-builtin-face)
    ("'[A-Za-z_][A-Za-z0-9_']*" . font-lock-type-face)))
(define-derived-mode funpack-mode prog-mode "funpack"
  "Theory files of funpack."
  (modify-syntax-entry ?# "<")
  (modify-syntax-entry ?\n ">")
  (modify-syntax-entry ?_ "w")
  (modify-syntax-entry ?' "w")
  (setq-local comment-start "# " font-lock-defaults '(funpack-keywords)))
(add-to-list 'auto-mode-alist '("\\.hol\\'" . funpack-mode))
(provide 'funpack)
