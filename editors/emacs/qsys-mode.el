;;; qsys-mode.el --- decks of Q-systems  -*- lexical-binding: t; coding: utf-8 -*-

;; Keywords: languages
;; Package-Requires: ((emacs "26.1"))

;;; Commentary:

;; A major mode for decks of Q-systems (qsys(5)), files NAME.qs: colours, comments, indentation, the grammars of a deck in a
;; menu, and two commands that run the program on the file.
;;
;;   C-c C-c   `qsys-check': is the deck accepted?  \\[next-error] goes to the line and the column of a refusal.
;;   C-c C-r   `qsys-run': what the grammars leave.
;;
;;   (add-to-list 'load-path "FOLDER")
;;   (require 'qsys-mode)

;;; Code:

(require 'compile)

(defgroup qsys nil
  "Decks of Q-systems."
  :group 'languages)

(defcustom qsys-program "qsys"
  "The program that checks and runs decks."
  :type 'string
  :group 'qsys)

(defcustom qsys-indent-offset 2
  "By how many columns stands what goes on from the line before."
  :type 'integer
  :safe #'integerp
  :group 'qsys)

(defvar qsys-mode-syntax-table
  (let ((table (make-syntax-table)))
    (modify-syntax-entry ?# "<" table)
    (modify-syntax-entry ?\n ">" table)
    (modify-syntax-entry ?\" "." table)
    (modify-syntax-entry ?\\ "." table)
    (modify-syntax-entry ?_ "w" table)
    (modify-syntax-entry ?' "w" table)
    (dolist (sign '(?+ ?* ?/ ?= ?- ?, ?.))
      (modify-syntax-entry sign "." table))
    table)
  "What characters are in decks.")

;; A quoted label ends on its line, and a quote inside is written twice; so a quote that was left open reaches no further.
(defconst qsys-syntax-propertize
  (syntax-propertize-rules
   ("\\(\"\\)\\(?:[^\"\n]\\|\"\"\\)*\\(\"\\)" (1 "|") (2 "|")))
  "What makes quoted labels strings.")

(defconst qsys-font-lock-keywords
  `(("-SYSTEME-[ \t]*\\(\\sw+\\)" 1 font-lock-function-name-face)
    (,(regexp-opt '("-SYSTEME-" "-GRAPHE-" "-FIN-" "-PHRASES-" "-VERSION-")) . font-lock-keyword-face)
    (,(regexp-opt '("-DANS-" "-HORS-" "-NON-" "-ET-" "-OU-" "-EGAL-")) . font-lock-builtin-face)
    ("-UNIQUE-" . font-lock-preprocessor-face)
    (,(regexp-opt '("-VIDE-" "-LIMITE-" "-REFUS-" "-FAIT-" "-SUITE-" "-NIVEAUX-")) . font-lock-warning-face)
    ("-[1-9][0-9]*-" . font-lock-constant-face)
    ("\\_<[A-FI-NU-Z]\\*\\(?:[1-9][0-9]?\\)?" . font-lock-variable-name-face)
    ("\\_<[GHO-T]\\*" . font-lock-warning-face)
    ("\"[^\"\n]*$" . font-lock-warning-face)
    ("==" . font-lock-keyword-face))
  "What is coloured in decks, but for comments and quoted labels.")

(defun qsys--ends-p ()
  "Whether nothing goes on behind this line.
It ends with a full stop, or with -GRAPHE-, -FIN- or -PHRASES-; a comment may
follow."
  (save-excursion
    (end-of-line)
    (let ((state (syntax-ppss)))
      (when (nth 4 state)
        (goto-char (nth 8 state))))
    (skip-chars-backward " \t" (line-beginning-position))
    (or (and (eq (char-before) ?.)
             (not (nth 3 (syntax-ppss))))
        (looking-back "-\\(?:GRAPHE\\|FIN\\|PHRASES\\)-" (line-beginning-position)))))

(defun qsys--column ()
  "The column at which this line should begin."
  (save-excursion
    (beginning-of-line)
    (cond
     ((looking-at "[ \t]*-\\(?:SYSTEME\\|GRAPHE\\|FIN\\|PHRASES\\|VERSION\\)-")
      0)
     ;; Lines of words stay where they are.
     ((save-excursion (re-search-backward "^-PHRASES-$" nil t))
      (current-indentation))
     (t
      (forward-comment (- (point)))
      (if (or (bobp) (qsys--ends-p)) 0 qsys-indent-offset)))))

(defun qsys-indent-line ()
  "Indent this line: what goes on from the line before stands to the right."
  (interactive)
  (let ((column (qsys--column)))
    (if (<= (current-column) (current-indentation))
        (indent-line-to column)
      (save-excursion (indent-line-to column)))))

(defvar qsys--file nil
  "The file of which a compilation buffer tells.")

(defun qsys--file-of-refusal ()
  "The file of a refusal: its line names none."
  qsys--file)

(define-compilation-mode qsys-compilation-mode "Q-system"
  "What the program tells of a deck.
A refusal has a line, a column in characters, and a cause."
  (setq-local compilation-error-regexp-alist
              '(("^-REFUS- \\([0-9]+\\) \\([0-9]+\\) [A-Za-z0-9]+\\.$" qsys--file-of-refusal 1 2)))
  (setq-local compilation-error-screen-columns nil)
  (setq-local compilation-first-column 1))

(defun qsys--compile (words)
  "Run the program with WORDS on the file of this buffer."
  (unless buffer-file-name
    (user-error "This buffer has no file"))
  (save-buffer)
  (let* ((file buffer-file-name)
         (command (format "%s %s < %s" (shell-quote-argument qsys-program) words (shell-quote-argument file)))
         (buffer (compilation-start command 'qsys-compilation-mode)))
    (with-current-buffer buffer
      (setq-local qsys--file file))
    buffer))

(defun qsys-check ()
  "Check the deck of this buffer.
A refusal is told with its place; else the deck in its canonical spelling."
  (interactive)
  (qsys--compile "check"))

(defun qsys-run (limit)
  "Run the deck of this buffer.
With a prefix argument, LIMIT is how many firings each grammar is allowed."
  (interactive "P")
  (qsys--compile (if limit (format "run --limit %d" (prefix-numeric-value limit)) "run")))

(defvar qsys-mode-map
  (let ((map (make-sparse-keymap)))
    (define-key map (kbd "C-c C-c") #'qsys-check)
    (define-key map (kbd "C-c C-r") #'qsys-run)
    map)
  "Keys of `qsys-mode'.")

;;;###autoload
(define-derived-mode qsys-mode prog-mode "Q-system"
  "Decks of Q-systems."
  (setq-local comment-start "# ")
  (setq-local comment-end "")
  (setq-local comment-start-skip "#+[ \t]*")
  (setq-local syntax-propertize-function qsys-syntax-propertize)
  (setq-local font-lock-defaults '(qsys-font-lock-keywords))
  (setq-local imenu-generic-expression '((nil "^-SYSTEME-[ \t]*\\(\\sw+\\)" 1)))
  (setq-local indent-line-function #'qsys-indent-line)
  (setq-local indent-tabs-mode nil))

;;;###autoload
(add-to-list 'auto-mode-alist '("\\.qs\\'" . qsys-mode))

(provide 'qsys-mode)

;;; qsys-mode.el ends here
