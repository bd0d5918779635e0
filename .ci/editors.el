;;; editors.el --- looks at qsys-mode  -*- lexical-binding: t; coding: utf-8 -*-

;; emacs --batch --load editors/emacs/qsys-mode.el --load .ci/editors.el PROGRAM WORK: at the top of the repository.

(setq qsys-program (pop command-line-args-left))
(defvar work (pop command-line-args-left))
(defvar failed nil)
(setq inhibit-message t)

(defun fail (&rest words)
  (setq failed t)
  (princ (concat "editors: emacs: " (apply #'format words) "\n")))

;; Colours: the first place of each text has this face.
(with-temp-buffer
  (insert-file-contents ".ci/editors.qs")
  (qsys-mode)
  (font-lock-ensure)
  (dolist (it '(("comment, of" . font-lock-comment-face)
                ("-SYSTEME-" . font-lock-keyword-face)
                ("NAMED" . font-lock-function-name-face)
                ("\"a # and" . font-lock-string-face)
                ("# and" . font-lock-string-face)
                ("-DANS-" . font-lock-builtin-face)
                ("-1-" . font-lock-constant-face)
                ("A*" . font-lock-variable-name-face)
                ("U*12" . font-lock-variable-name-face)
                ("12(" . font-lock-variable-name-face)
                ("G*" . font-lock-warning-face)
                ("BA(" . nil)
                ("==" . font-lock-keyword-face)
                ("-UNIQUE-" . font-lock-preprocessor-face)
                ("-EGAL-" . font-lock-builtin-face)
                ("-VERSION-" . font-lock-keyword-face)
                ("ÉTÉ" . nil)
                ("\"left" . font-lock-warning-face)
                ("-FIN-" . font-lock-keyword-face)))
    (goto-char (point-min))
    (let ((case-fold-search nil))
      (search-forward (car it)))
    (let ((face (get-text-property (match-beginning 0) 'face)))
      (unless (eq (if (consp face) (car face) face) (cdr it))
        (fail "%s has the face %s, not %s" (car it) face (cdr it))))))

;; Indentation: each deck, with all its lines at the left, is laid out again as it stands; but for those that show that layout
;; means nothing.
(dolist (file (directory-files "examples" t "\\.qs\\'"))
  (unless (string-match-p "/refused-\\|/spelling\\|/comments" file)
    (with-temp-buffer
      (insert-file-contents file)
      (let ((wanted (buffer-string)))
        (qsys-mode)
        (goto-char (point-min))
        (while (re-search-forward "^[ \t]+" nil t)
          (replace-match ""))
        (indent-region (point-min) (point-max))
        (unless (string= (buffer-string) wanted)
          (fail "%s is indented otherwise" file))))))

;; Comments, and the mode of a file.
(with-temp-buffer
  (qsys-mode)
  (insert "A == B.\n")
  (comment-region (point-min) (point-max))
  (unless (string= (buffer-string) "# A == B.\n")
    (fail "commented otherwise: %s" (buffer-string))))

;; The grammars of a deck.
(require 'imenu)
(with-temp-buffer
  (insert-file-contents "examples/cascade.qs")
  (qsys-mode)
  (let ((found (sort (delq nil (mapcar (lambda (it) (and (cdr it) (car it))) (imenu--make-index-alist t))) #'string<)))
    (unless (member "PHRASES" found)
      (fail "the grammars found are %s" found))))

;; A refusal leads to its line and column, in characters, behind accents and a tab.
(dolist (it '(("# \n-SYSTEME- S.\nGN(I*) == P(I*,J*).\n-GRAPHE- -1- A -2-. -FIN-\n" "J*).")
              ("-SYSTEME- S.\n\nÉÉ(\tI*) == P(I*,K*).\n-GRAPHE- -1- A -2-. -FIN-\n" "K*).")))
  (let ((file (expand-file-name "fault.qs" work))
        (coding-system-for-write 'utf-8))
    (with-temp-file file
      (insert (car it)))
    (let ((deck (find-file-noselect file)))
      (with-current-buffer deck
        (unless (eq major-mode 'qsys-mode)
          (fail "the mode of a deck is %s" major-mode))
        (let* ((buffer (qsys-check))
               (process (get-buffer-process buffer)))
          (while (and process (process-live-p process))
            (accept-process-output process 1))
          (sleep-for 0.1)
          (condition-case fault
              (with-current-buffer buffer
                (next-error 1 t))
            (error (fail "no error found: %s: %s" fault (with-current-buffer buffer (buffer-string)))))))
      (with-current-buffer deck
        (unless (looking-at-p (regexp-quote (cadr it)))
          (fail "a refusal leads to %s" (buffer-substring (point) (line-end-position))))
        (set-buffer-modified-p nil))
      (kill-buffer deck))))

(kill-emacs (if failed 1 0))
