;;; writer.el --- A writer of random sessions  -*- lexical-binding: t; -*-

;; Copyright (c) 2026 the Cuffshale authors
;; SPDX-License-Identifier: ISC

;;; Commentary:

;; `scripts/try_emacs.py' begins this in a batch Emacs, connects to it, and has
;; it do what it says.  Each character that a writer types stands nowhere else,
;; so it is seen which ones are missing, and who deleted them.

;;; Code:

(require 'mgr)
(require 'cl-lib)

(defvar writer-queue nil "Expressions that are to be done.")
(defvar writer-next 0 "The next character that is typed.")
(defvar writer-typed nil "What was typed since it was last told.")
(defvar writer-gone nil "What was deleted since it was last told.")
(defvar writer-mine (make-hash-table) "The characters that this writer put in.")
(defvar writer-faults nil "What is not as it has to be.")

(defconst writer-least #x20000 "Characters from here on stand nowhere else.")

;;;; What is watched

(defun writer-unique (text)
  "Return the characters of TEXT that stand nowhere else."
  (cl-remove-if (lambda (sign) (< sign writer-least)) (append text nil)))

(defun writer-watch-splice (session lo hi text)
  "Take note of what is put in and deleted by a change of this writer.
The change is in the text of SESSION, of TEXT from LO to HI."
  (ignore session lo hi)
  (dolist (sign (writer-unique text))
    (puthash sign t writer-mine)
    (push sign writer-typed)))

(defun writer-watch-sent (session)
  "Take note of what is deleted by a change that SESSION sends."
  (pcase-let* ((`(,begin . ,old) (mgr--session-old session))
               (new (mgr--text begin (mgr--old-end session))))
    (dolist (sign (writer-unique old))
      (unless (cl-find sign new)
        (push sign writer-gone)))))

(advice-add 'mgr--send-change :before #'writer-watch-sent)

(defvar writer-taken nil "What the change deletes that comes of an undo.")
(defvar writer-restored nil "What it puts.")

(defun writer-watch-put (session lo hi text)
  "Take note of what a change deletes and puts that comes in SESSION, of TEXT from LO to HI."
  (ignore session)
  (let ((gone (writer-unique (save-restriction (widen) (buffer-substring-no-properties (1+ lo) (1+ hi)))))
        (put (writer-unique text)))
    ;; In turn: what one undo puts the next one of the same change may take.
    (setq writer-taken (cl-set-difference (append gone writer-taken) put)
          writer-restored (append put (cl-set-difference writer-restored gone)))))

(defun writer-around-change (function session made splices by is-undo)
  "Call FUNCTION with SESSION, MADE, SPLICES, BY and IS-UNDO, and look at undos.
What stands between two things that an undo takes is put again by it."
  (let (writer-taken writer-restored)
    (funcall function session made splices by is-undo)
    (when is-undo
      (dolist (sign writer-taken)
        (push sign writer-gone)
        (unless (gethash sign writer-mine)
          (push (format "an undo took %c of another" sign) writer-faults)))
      (dolist (sign writer-restored)
        (puthash sign t writer-mine)
        (push sign writer-typed)))))

(advice-add 'mgr--splice :before #'writer-watch-splice)
(advice-add 'mgr--put :before #'writer-watch-put)
(advice-add 'mgr--change :around #'writer-around-change)

;;;; What is done

(defvar writer-undoing nil
  "Whether mgr ended while an undo was asked for, which it may have done.")

(defun writer-do (command &optional event)
  "Have COMMAND be done as by a key, by that of EVENT."
  (setq this-command command)
  (run-hooks 'pre-command-hook)
  (condition-case fault
      (let ((last-command-event (or event ?x)) (current-prefix-arg nil))
        (if (symbolp command) (call-interactively command) (funcall command)))
    ((user-error beginning-of-buffer end-of-buffer buffer-read-only)
     ;; What ends the session may still wait for its turn.
     (unless (and mgr--session (process-live-p (mgr--session-process mgr--session)))
       (setq writer-undoing (or writer-undoing (memq command '(mgr-undo mgr-undo-only mgr-redo))))))
    ;; What a killed program did not answer is no fault.
    (error (unless (or (not mgr--session) (string-search "two things" (error-message-string fault)))
             (push (format "%S: %S" command fault) writer-faults))))
  (run-hooks 'post-command-hook)
  (setq last-command (if (symbolp this-command) this-command 'other)))

(defun writer-go ()
  "Go somewhere."
  (goto-char (+ (point-min) (random (1+ (- (point-max) (point-min)))))))

(defun writer-span (size)
  "Set the mark at most SIZE characters after point, and go there."
  (push-mark (point) t t)
  (goto-char (min (point-max) (+ (point) (random (1+ size))))))

(defun writer-type (count)
  "Type COUNT characters."
  (dotimes (_ count)
    (let ((sign (if (= 0 (random 4)) (aref "abc e \né→漢\t(" (random 12)) writer-next)))
      (when (eq sign writer-next)
        (cl-incf writer-next))
      (writer-do 'self-insert-command sign))))

(defun writer-text (count)
  "Return a text of COUNT characters."
  (let ((begin writer-next))
    (cl-incf writer-next (/ count 2))
    (mapconcat (lambda (i) (if (cl-evenp i)
                               (string (+ begin (/ i 2)))
                             (if (= 0 (random 9)) "\n" "e ")))
               (number-sequence 0 (1- (- count (mod count 2)))) "")))

(defun writer-replace (pattern text)
  "Replace what PATTERN finds after point by TEXT, some times."
  (let ((left 40))
    (while (and (<= 0 (cl-decf left)) (re-search-forward pattern nil t))
      (replace-match text))))

(defun writer-replace-slowly ()
  "Replace what was found some time ago, as `query-replace' does."
  (when (let (case-fold-search) (search-forward "e" nil t))
    (let ((found (match-data t)))
      (accept-process-output nil 0.05)
      (set-match-data found)
      (if (equal (match-string 0) "e")
          (replace-match "E")
        (push "a place moved within a command" writer-faults)))))

(defun writer-paste ()
  "Paste 1 MB somewhere, in which each 1302nd character stands nowhere else."
  (writer-go)
  (let ((text (mapconcat (lambda (sign) (concat (string sign) (apply #'concat (make-list 26 writer-line)) "\n"))
                         (number-sequence writer-next (+ writer-next 199)) "")))
    (cl-incf writer-next 200)
    (when mgr--session
      (writer-do (lambda () (insert text)))))
  (writer-told))

(defconst writer-line (concat (make-string 49 #x1d11e) "\n")
  "A line of 197 bytes: a note takes 1,000,000 characters, deleted ones too.")

(defconst writer-deeds
  `((20 . ,(lambda () (writer-go) (writer-type (1+ (random 8)))))
    (6 . ,(lambda () (writer-type (1+ (random 30)))))
    (4 . ,(lambda () (writer-go) (dotimes (_ (1+ (random 4))) (writer-do 'delete-char))))
    (4 . ,(lambda () (writer-go) (dotimes (_ (1+ (random 4))) (writer-do 'delete-backward-char))))
    (3 . ,(lambda () (writer-go) (writer-do 'kill-word)))
    (3 . ,(lambda () (writer-go) (writer-do 'kill-line)))
    (3 . ,(lambda () (writer-go) (writer-span 12) (writer-do 'kill-region)))
    (4 . ,(lambda () (writer-go) (when kill-ring (writer-do 'yank))))
    (1 . ,(lambda () (when kill-ring (writer-do 'yank) (writer-do 'yank-pop))))
    (2 . ,(lambda () (writer-go) (writer-do 'newline)))
    (2 . ,(lambda () (writer-go) (writer-do 'open-line)))
    (2 . ,(lambda () (writer-go) (writer-do 'fill-paragraph)))
    (2 . ,(lambda () (writer-go) (writer-span 60) (writer-do 'indent-region)))
    (1 . ,(lambda () (writer-go) (writer-span 60) (writer-do 'upcase-region)))
    (1 . ,(lambda () (writer-go) (writer-do 'transpose-words)))
    (1 . ,(lambda () (writer-go) (writer-do 'transpose-lines)))
    (1 . ,(lambda () (writer-go) (writer-span 80)
            (writer-do (lambda () (sort-lines nil (region-beginning) (region-end))))))
    (2 . ,(lambda () (writer-go) (writer-do (lambda () (writer-replace "e" "éé")))))
    (2 . ,(lambda () (writer-go) (writer-do (lambda () (writer-replace "é+\\|  +" "e")))))
    (2 . ,(lambda () (writer-go) (writer-do (lambda () (writer-replace-slowly)))))
    (1 . ,(lambda () (writer-go) (writer-span 200)
            (writer-do (lambda () (string-rectangle (region-beginning) (region-end) "|")))))
    (1 . ,(lambda () (writer-go) (writer-span 100)
            (writer-do (lambda () (kill-rectangle (region-beginning) (region-end))))
            (writer-go) (writer-do 'yank-rectangle)))
    (1 . ,(lambda () (writer-do (lambda () (subst-char-in-region (point-min) (point-max) ?a ?b)))))
    (2 . ,(lambda () (writer-go) (let ((text (writer-text (random 400))))
                                   (writer-do (lambda () (insert text))))))
    (3 . ,(lambda () (writer-go) (writer-span 200) (narrow-to-region (region-beginning) (region-end))))
    (4 . ,#'widen)
    (9 . ,(lambda () (dotimes (_ (1+ (random 3))) (writer-do 'mgr-undo))))
    (3 . ,(lambda () (writer-do 'mgr-undo-only)))
    (3 . ,(lambda () (writer-do 'mgr-redo)))
    (2 . ,(lambda () (writer-do 'save-buffer)))
    (1 . ,(lambda () (funcall (nth (random 3) '(text-mode fundamental-mode emacs-lisp-mode)))))
    (1 . ,(lambda () (writer-go) (writer-do (lambda () (insert "x\x3fff80y"))))))
  "What is done, and how often.")

(defun writer-deed ()
  "Return something to do."
  (let ((left (random (apply #'+ (mapcar #'car writer-deeds)))) (deeds writer-deeds))
    (while (>= left (caar deeds))
      (cl-decf left (car (pop deeds))))
    (cdar deeds)))

;;;; What the script asks for

(defun writer-open (name words)
  "Open the note NAME with WORDS, once nobody else has it."
  (let (buffer (tries 100))
    (while (not buffer)
      (condition-case fault
          (progn (mgr--enter name words)
                 (setq buffer (current-buffer)))
        (user-error (when (= 0 (cl-decf tries))
                      (signal (car fault) (cdr fault)))
                    (sleep-for 0.1))))
    (buffer-size)))

(defun writer-steps (count)
  "Do COUNT things, as far as the note is open."
  (dotimes (_ count)
    (when mgr--session
      (funcall (writer-deed))
      (accept-process-output nil 0.001)))
  (writer-told))

(defun writer-told ()
  "Return what was typed and deleted, and the faults, since it was last told."
  (prog1 (list :typed writer-typed :gone writer-gone
               :faults (mapcar (lambda (each) (if (stringp each) each (format "%S" each))) writer-faults)
               :live (if mgr--session t :false)
               :lacks (if writer-lacks t :false))
    (setq writer-typed nil writer-gone nil writer-faults nil)))

(defvar writer-lacks nil "Whether the buffer has what the note lacks.")

(defun writer-note-end (lacks why)
  "Keep whether the buffer LACKS something, and say WHY it ended."
  (setq writer-lacks lacks)
  (message "ended: %s: %s" lacks why))

(advice-add 'mgr--warn :override #'writer-note-end)

(defun writer-whole ()
  "Return the text of this buffer."
  (save-restriction (widen) (buffer-substring-no-properties (point-min) (point-max))))

(defun writer-state ()
  "Return the text, and how far others have it."
  (let ((session mgr--session))
    (list :text (writer-whole)
          :rests (if (and session (= (mgr--session-made session) (mgr--session-kept session))) t :false)
          :shown (if session (mgr--session-shown session) ""))))

(defun writer-open-again (name words)
  "Open the note NAME again with WORDS, as one does whose session ended."
  (let ((before (writer-unique (writer-whole))))
    (when writer-lacks
      (save-restriction (widen) (write-region nil nil buffer-file-name nil 'quiet)))
    (set-buffer-modified-p nil)
    (setq writer-lacks nil)
    (prog1 (writer-open name words)
      (when writer-undoing
        (setq writer-undoing nil)
        (dolist (sign (cl-set-difference before (writer-unique (writer-whole))))
          (when (gethash sign writer-mine)
            (push sign writer-gone)))))))

(defun read-char-choice (_prompt _letters &rest _)
  "The answer to whether the text or the log counts: the text."
  ?f)

;;;; Times

(defvar writer-came (make-hash-table) "When each character came of others.")

(defun writer-note-came (_session _lo _hi text)
  "Take note of when TEXT came."
  (when (= 1 (length text))
    (puthash (aref text 0) (float-time) writer-came)))

(defun writer-key (sign)
  "Type SIGN, and return when, and how many seconds that took."
  (let ((begun (float-time)))
    (writer-do 'self-insert-command sign)
    (list :begun begun :seconds (- (float-time) begun))))

(defun writer-when (sign)
  "Return when SIGN came."
  (list :came (or (gethash sign writer-came) 0)))

(defun writer-plain-keys (text count)
  "Return how many seconds each of COUNT keys takes in a buffer of TEXT that is no note."
  (with-temp-buffer
    (buffer-enable-undo)
    (switch-to-buffer (current-buffer))
    (insert text)
    (goto-char (/ (point-max) 2))
    (let ((begun (float-time)))
      (dotimes (_ count)
        (writer-do 'self-insert-command ?x))
      (list :seconds (/ (- (float-time) begun) count)))))

(defun writer-keys (count)
  "Return how many seconds each of COUNT keys takes in this buffer."
  (goto-char (/ (point-max) 2))
  (let ((begun (float-time)))
    (dotimes (_ count)
      (writer-do 'self-insert-command ?x))
    (list :seconds (/ (- (float-time) begun) count))))

(defun writer-serve (path next seed)
  "Do what comes at the socket PATH; type characters from NEXT on; SEED is for chance."
  (random seed)
  (setq mgr-seconds 120)
  (setq writer-next next)
  (let ((link (make-network-process
               :name "script" :family 'local :service path :coding 'utf-8-unix :noquery t
               :filter (let ((rest ""))
                         (lambda (_ string)
                           (let ((lines (split-string (concat rest string) "\n")))
                             (setq rest (car (last lines)))
                             (setq writer-queue (nconc writer-queue (butlast lines)))))))))
    (while (process-live-p link)
      (accept-process-output nil 0.05)
      (while writer-queue
        (let ((told (condition-case fault
                        (eval (car (read-from-string (pop writer-queue))) t)
                      (error (list :error (format "%S" fault))))))
          (process-send-string link (concat (json-serialize (if (listp told) (writer-plain told) told)) "\n")))))))

(defun writer-plain (told)
  "Return TOLD with vectors in place of lists."
  (cl-loop for (key value) on told by #'cddr
           append (list key (if (listp value) (vconcat value) value))))

(provide 'writer)
;;; writer.el ends here
