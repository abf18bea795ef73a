;;; mgr-tests.el --- Tests of mgr.el beside a real mgr  -*- lexical-binding: t; -*-

;; Copyright (c) 2026 the Cuffshale authors
;; SPDX-License-Identifier: ISC

;;; Commentary:

;; `scripts/try_emacs.py' runs these.  The environment variable MGR names mgr;
;; mgr-hub and mgr-channel are those of this repository.

;;; Code:

(require 'ert)
(require 'mgr)

(defconst mgr-tests-front
  (expand-file-name "../../../front" (file-name-directory (or load-file-name buffer-file-name)))
  "Where the programs of the front stand.")

(setq mgr-channel-program (expand-file-name "mgr-channel" mgr-tests-front))

(defvar mgr-tests-folder nil "The folder of a test.")

(defvar mgr-tests-warned nil "What was warned of.")

(defun mgr-tests-file (name)
  "Return the path of the file NAME of a test."
  (expand-file-name name mgr-tests-folder))

(defun mgr-tests-text (name)
  "Return what the file NAME has."
  (with-temp-buffer
    (insert-file-contents (mgr-tests-file name))
    (buffer-string)))

(defun mgr-tests-in-folder (test)
  "Call TEST in a folder of its own."
  (let* ((mgr-tests-folder (make-temp-file "mgr-tests" t)) (mgr-tests-warned nil)
         (process-environment (cons (concat "XDG_STATE_HOME=" mgr-tests-folder "/state") process-environment)))
    (unwind-protect
        (cl-letf (((symbol-function 'display-warning) (lambda (&rest words) (push words mgr-tests-warned))))
          (save-window-excursion (funcall test)))
      (dolist (buffer (buffer-list))
        (when (buffer-live-p buffer)
          (with-current-buffer buffer
            (when mgr--session
              (mgr-leave))
            (when (and buffer-file-name (file-in-directory-p buffer-file-name mgr-tests-folder))
              (set-buffer-modified-p nil)
              (kill-buffer)))))
      (delete-directory mgr-tests-folder t))))

(defmacro mgr-tests-do (command &rest body)
  "Have COMMAND be done as by a key, by BODY."
  (declare (indent 1))
  `(progn (setq this-command ',command)
          (run-hooks 'pre-command-hook)
          (prog1 (progn ,@body)
            (run-hooks 'post-command-hook)
            (setq last-command this-command))))

(defun mgr-tests-type (text)
  "Type TEXT."
  (mapc (lambda (sign) (mgr-tests-do self-insert-command
                         (let ((last-command-event sign))
                           (self-insert-command 1))))
        text))

(defun mgr-tests-insert (text)
  "Insert TEXT as a command."
  (mgr-tests-do insert (insert text)))

(defun mgr-tests-undo ()
  "Do the command `mgr-undo'."
  (mgr-tests-do mgr-undo (mgr-undo)))

(defun mgr-tests-await (what done)
  "Wait until DONE returns non-nil; WHAT says what that is."
  (let ((until (time-add nil 30)))
    (while (not (funcall done))
      (accept-process-output nil 0.02)
      (when (time-less-p until nil)
        (ert-fail what)))))

(defun mgr-tests-rest (buffer)
  "Wait until all of BUFFER is kept and put."
  (mgr-tests-await "it is saved" (lambda () (not (buffer-modified-p buffer)))))

(defun mgr-tests-with-two (test &optional text)
  "Call TEST with two buffers of one note, which has TEXT, joined at a hub."
  (mgr-tests-in-folder
   (lambda ()
     (make-directory (mgr-tests-file "hub"))
     (write-region (or text "") nil (mgr-tests-file "hub/note") nil 'quiet)
     (let* ((port (number-to-string (+ 20000 (random 10000))))
            (hub (start-process "hub" " *hub*" (expand-file-name "mgr-hub" mgr-tests-front)
                                (mgr-tests-file "hub/note") "--port" port)))
       (set-process-query-on-exit-flag hub nil)
       (unwind-protect
           (let (one other)
             (mgr-tests-await "the hub serves" (lambda () (with-current-buffer " *hub*"
                                                            (save-excursion (goto-char (point-min))
                                                                            (search-forward "serves" nil t)))))
             (dolist (name '("one" "other"))
               (make-directory (mgr-tests-file name)))
             (let ((mgr-person "One"))
               (mgr-join port (mgr-tests-file "one/note")))
             (setq one (current-buffer))
             (let ((mgr-person "Other"))
               (mgr-join port (mgr-tests-file "other/note")))
             (setq other (current-buffer))
             (dolist (buffer (list one other))
               (mgr-tests-await "the text comes" (lambda () (equal (mgr-tests-string buffer) (or text "")))))
             (funcall test one other))
         (delete-process hub)
         (kill-buffer " *hub*"))))))

(defun mgr-tests-string (buffer)
  "Return all of BUFFER."
  (with-current-buffer buffer
    (save-restriction (widen) (buffer-substring-no-properties (point-min) (point-max)))))

(defun mgr-tests-same (one other)
  "Wait until ONE and OTHER have one text, and return it."
  (mgr-tests-await "both have one text"
                   (lambda () (and (equal (mgr-tests-string one) (mgr-tests-string other))
                                   (cl-loop for buffer in (list one other)
                                            for session = (buffer-local-value 'mgr--session buffer)
                                            always (= (mgr--session-made session) (mgr--session-kept session))))))
  (mgr-tests-string one))

;;;; One who writes

(ert-deftest mgr-tests-saved ()
  "What is written is in the text and in the log, and nothing else of Emacs is beside it."
  (mgr-tests-in-folder
   (lambda ()
     (mgr-open (mgr-tests-file "note.txt"))
     (should (eq major-mode 'text-mode))
     (mgr-tests-insert "hällo 漢字\n")
     (should (buffer-modified-p))
     (mgr-tests-do save-buffer (save-buffer))
     (should-not (buffer-modified-p))
     (should (verify-visited-file-modtime))
     (should (equal (mgr-tests-text "note.txt") "hällo 漢字\n"))
     (mgr-tests-insert "more")
     (mgr-tests-rest (current-buffer))
     (should (equal (mgr-tests-text "note.txt") "hällo 漢字\nmore"))
     (should (equal (directory-files mgr-tests-folder nil "\\`[^.]") '("note.txt" "note.txt.ops" "state")))
     (should (eq buffer-undo-list t))
     (kill-buffer)
     (mgr-open (mgr-tests-file "note.txt"))
     (should (equal (buffer-string) "hällo 漢字\nmore")))))

(ert-deftest mgr-tests-steps ()
  "Typed characters are undone by 20, and a command with all its changes."
  (mgr-tests-in-folder
   (lambda ()
     (mgr-open (mgr-tests-file "note"))
     (mgr-tests-type "abcdefghijklmnopqrstuvwxyz0123456789ABCDEFGH")
     (mgr-tests-do replace (goto-char (point-min)) (let ((case-fold-search nil)) (while (re-search-forward "[aeiou]" nil t) (replace-match "<\\&>"))))
     (mgr-tests-undo)
     (should (equal (buffer-string) "abcdefghijklmnopqrstuvwxyz0123456789ABCDEFGH"))
     (mgr-tests-undo)
     (should (equal (buffer-string) "abcdefghijklmnopqrstuvwxyz0123456789ABCD"))
     (mgr-tests-undo)
     (should (equal (buffer-string) "abcdefghijklmnopqrst"))
     (mgr-tests-do mgr-redo (mgr-redo))
     (should (equal (buffer-string) "abcdefghijklmnopqrstuvwxyz0123456789ABCD"))
     (mgr-tests-do mgr-undo-only (mgr-undo-only 2))
     (should (equal (buffer-string) ""))
     (should-error (mgr-undo-only) :type 'user-error)
     (mgr-tests-do mgr-redo (mgr-redo 4))
     (should (equal (buffer-string) "<a>bcd<e>fgh<i>jklmn<o>pqrst<u>vwxyz0123456789ABCDEFGH"))
     (should-error (mgr-redo) :type 'user-error))))

(ert-deftest mgr-tests-undos-are-undone ()
  "After another command an undo takes back the undos before it, as in Emacs."
  (mgr-tests-in-folder
   (lambda ()
     (mgr-open (mgr-tests-file "note"))
     (dolist (text '("one " "two " "three "))
       (mgr-tests-insert text))
     (mgr-tests-undo)
     (mgr-tests-undo)
     (should (equal (buffer-string) "one "))
     (mgr-tests-do forward-char (goto-char (point-min)))
     (mgr-tests-undo)
     (should (equal (buffer-string) "one two "))
     (mgr-tests-undo)
     (should (equal (buffer-string) "one two three "))
     (mgr-tests-undo)
     (should (equal (buffer-string) "one two ")))))

(defconst mgr-tests-keys
  "C-n C-n C-k C-k C-y C-n M-f M-f M-d M-d C-a C-y M-> RET some SPC words SPC of SPC a SPC new SPC user, SPC which
   SPC are SPC long SPC enough SPC for SPC two SPC lines SPC of SPC seventy SPC columns M-q RET C-u 8 * RET M-< C-s Emacs RET M-DEL M-u
   M-x replace-string RET window RET pane RET M-< 3*C-n C-f C-f C-t M-f M-t C-n C-x C-t M-< M-% Meta RET MMM RET !
   M-< C-n C-n C-f C-SPC 3*C-n 3*C-f C-x r k C-n C-n C-x r y C-SPC C-n C-n C-x r t > RET
   M-< C-SPC 20*C-n C-x n n M-< C-n C-k M-> end C-x n w C-SPC C-p C-p C-w C-y C-y
   M-< C-x C-o M-^ C-j C-o M-m TAB (a SPC (b) SPC c) 4*C-/"
  "What a new user tries.")

(defun mgr-tests-play ()
  "Play these keys in this buffer, and return its text."
  (let ((last-command nil) (line-move-visual nil) (kill-ring nil) (disabled-command-function nil))
    (goto-char (point-min))
    (execute-kbd-macro (kbd mgr-tests-keys))
    (buffer-string)))

(ert-deftest mgr-tests-as-ever ()
  "Keys do in a note what they do in a file: in Emacs's tutorial, as a new user does."
  (mgr-tests-in-folder
   (lambda ()
     (dolist (name '("file" "note"))
       (copy-file (expand-file-name "tutorials/TUTORIAL" data-directory) (mgr-tests-file name)))
     (find-file (mgr-tests-file "file"))
     (let ((text (mgr-tests-play)))
       (mgr-open (mgr-tests-file "note"))
       (should (equal (mgr-tests-play) text))
       (mgr-tests-rest (current-buffer))
       (should (equal (mgr-tests-text "note") text))))))

(ert-deftest mgr-tests-least ()
  "Only what differs is sent, and nothing if the text stays."
  (mgr-tests-in-folder
   (lambda ()
     (mgr-open (mgr-tests-file "note"))
     (mgr-tests-insert "some words of a text")
     (let ((made (mgr--session-made mgr--session)) sent)
       (put-text-property 1 5 'face 'bold)
       (upcase-region 1 1)
       (should (= made (mgr--session-made mgr--session)))
       (cl-letf (((symbol-function 'mgr--splice) (lambda (_ &rest splice) (push splice sent))))
         (upcase-region 6 8)
         (save-excursion (goto-char 6) (search-forward "WOrds") (replace-match "WOods" t t)))
       (should (equal sent '((7 8 "o") (5 7 "WO"))))))))

(ert-deftest mgr-tests-raw-bytes ()
  "Raw bytes are left out, and all else stays."
  (mgr-tests-in-folder
   (lambda ()
     (mgr-open (mgr-tests-file "note"))
     (mgr-tests-insert (concat "a" (string #x3fff80) "é" (string #xd800) "b"))
     (should (equal (buffer-string) "aéb"))
     (should (= (mgr--session-size mgr--session) 3))
     (let ((coding-system-for-write 'no-conversion))
       (write-region (unibyte-string ?\n ?c 255 ?d) nil (mgr-tests-file "file") nil 'quiet))
     (let ((coding-system-for-read 'utf-8))
       (mgr-tests-do insert-file (insert-file (mgr-tests-file "file"))))
     (mgr-tests-rest (current-buffer))
     (should (equal (mgr-tests-text "note") "aéb\ncd")))))

(ert-deftest mgr-tests-another-mode ()
  "Another major mode leaves the note as it is."
  (mgr-tests-in-folder
   (lambda ()
     (mgr-open (mgr-tests-file "note"))
     (emacs-lisp-mode)
     (mgr-tests-insert "(one)")
     (should mgr-mode)
     (should (eq buffer-undo-list t))
     (should-not require-final-newline)
     (mgr-tests-rest (current-buffer))
     (should (equal (mgr-tests-text "note") "(one)")))))

(ert-deftest mgr-tests-another-file ()
  "A buffer that is written to another file is that file's, and leaves the note."
  (mgr-tests-in-folder
   (lambda ()
     (mgr-open (mgr-tests-file "note"))
     (mgr-tests-insert "words")
     (write-file (mgr-tests-file "file"))
     (should-not mgr-mode)
     (should (equal (mgr-tests-text "file") "words"))
     (should (equal (mgr-tests-text "note") "words")))))

(ert-deftest mgr-tests-renamed ()
  "A buffer whose file gets another name is of that file, and the note has all."
  (mgr-tests-in-folder
   (lambda ()
     (mgr-open (mgr-tests-file "note"))
     (mgr-tests-insert "words")
     (mgr-tests-rest (current-buffer))
     (rename-file "note" "other")
     (mgr-tests-insert ", more")
     (set-visited-file-name (mgr-tests-file "other") nil t)
     (should-not mgr-mode)
     (should (buffer-modified-p))
     (save-buffer)
     (should (equal (mgr-tests-text "other") "words, more"))
     (should (equal (mgr-tests-text "note") "words, more")))))

(ert-deftest mgr-tests-cloned ()
  "What is written in an indirect buffer is in the note, which stays open without it."
  (mgr-tests-in-folder
   (lambda ()
     (mgr-open (mgr-tests-file "note"))
     (mgr-tests-insert "words")
     (with-current-buffer (make-indirect-buffer (current-buffer) "clone" t)
       (goto-char (point-max))
       (mgr-tests-insert ", more")
       (kill-buffer))
     (should mgr-mode)
     (should (equal (buffer-string) "words, more"))
     (mgr-tests-rest (current-buffer))
     (should (equal (mgr-tests-text "note") "words, more")))))

(ert-deftest mgr-tests-hung-up ()
  "An Emacs that is hung up ends, and what was written is saved."
  (mgr-tests-in-folder
   (lambda ()
     (let* ((note (mgr-tests-file "note"))
            (writes `(progn (setq mgr-channel-program ,mgr-channel-program)
                            (mgr-open ,note)
                            (insert "words")
                            (message "ready")
                            (while t (sleep-for 1))))
            (emacs (start-process "emacs" (generate-new-buffer " *emacs*") "emacs" "-Q" "--batch"
                                  "-l" (locate-library "mgr") "--eval" (format "%S" writes))))
       (set-process-query-on-exit-flag emacs nil)
       (mgr-tests-await "it is ready" (lambda () (string-search "ready" (mgr-tests-string (process-buffer emacs)))))
       (signal-process emacs 'HUP)
       (mgr-tests-await "it ends" (lambda () (not (process-live-p emacs))))
       (kill-buffer (process-buffer emacs))
       (mgr-tests-await "it is saved" (lambda () (equal (mgr-tests-text "note") "words")))))))

(ert-deftest mgr-tests-killed ()
  "If mgr-channel or mgr is killed that is said, the buffer stays, and the note opens again."
  (dolist (is-mgr '(nil t))
    (mgr-tests-in-folder
     (lambda ()
       (mgr-open (mgr-tests-file "note"))
       (mgr-tests-insert "kept ")
       (mgr-tests-await "it is kept" (lambda () (= 1 (mgr--session-kept mgr--session))))
       (let ((channel (process-id (mgr--session-process mgr--session))))
         (signal-process (if is-mgr (mgr-tests-child channel) channel) 'KILL))
       (insert "lost?")
       (mgr-tests-await "it is noticed" (lambda () (not mgr-mode)))
       (should (buffer-modified-p))
       (should (eq (nth 2 (car mgr-tests-warned)) :error))
       (should (equal (buffer-string) "kept lost?"))
       (insert "!")
       (save-buffer)
       (cl-letf (((symbol-function 'read-char-choice) (lambda (&rest _) ?f)))
         (mgr-tests-await "it opens again" (lambda () (ignore-errors (mgr-open (mgr-tests-file "note")) mgr-mode))))
       (should (equal (buffer-string) "kept lost?!"))))))

(defun mgr-tests-child (process)
  "Return the number of the child of the PROCESS of this number."
  (cl-find-if (lambda (each) (eql process (alist-get 'ppid (process-attributes each)))) (list-system-processes)))

(ert-deftest mgr-tests-refused ()
  "What mgr does not take is said, and stays in the buffer."
  (mgr-tests-in-folder
   (lambda ()
     (mgr-open (mgr-tests-file "note"))
     (mgr-tests-insert "words")
     (mgr-tests-insert (make-string 4194305 ?x))
     (mgr-tests-await "it is noticed" (lambda () (not mgr-mode)))
     (should (buffer-modified-p))
     (should (eq (nth 2 (car mgr-tests-warned)) :error))
     (should (= (buffer-size) 4194310)))))

(ert-deftest mgr-tests-not-saved ()
  "What cannot be saved is said, and is kept in the state folder."
  (mgr-tests-in-folder
   (lambda ()
     (make-directory (mgr-tests-file "away"))
     (mgr-open (mgr-tests-file "away/note"))
     (mgr-tests-insert "saved ")
     (mgr-tests-rest (current-buffer))
     (rename-file (mgr-tests-file "away") (mgr-tests-file "back"))
     (mgr-tests-insert "and not")
     (mgr-tests-await "it is said" (lambda () (string-search "Not saved" (mgr--lighter))))
     (should (< (mgr--session-kept mgr--session) (mgr--session-made mgr--session)))
     (mgr-leave)
     (should (buffer-modified-p))
     (should (eq (nth 2 (car mgr-tests-warned)) :error))
     (set-buffer-modified-p nil)
     (kill-buffer)
     (should (cl-some (lambda (path) (string-search "saved and not" (mgr-tests-text path)))
                      (directory-files-recursively (mgr-tests-file "state") "note\\'\\|text\\'"))))))

(ert-deftest mgr-tests-asked ()
  "If text and log differ it is asked which one counts."
  (mgr-tests-in-folder
   (lambda ()
     (mgr-open (mgr-tests-file "note"))
     (mgr-tests-insert "one")
     (kill-buffer)
     (write-region "one two" nil (mgr-tests-file "note") nil 'quiet)
     (cl-letf (((symbol-function 'read-char-choice) (lambda (question letters)
                                                      (should (string-search "differ" question))
                                                      (should (equal letters '(?f ?l)))
                                                      ?f)))
       (mgr-open (mgr-tests-file "note")))
     (should (equal (buffer-string) "one two")))))

;;;; An mgr-channel that ends

(defconst mgr-tests-opens
  "#!/bin/sh
says() { printf '{\"op\":\"%%s\",\"made\":0%%s}\\n' $1 \"$2\"; }
says open \",\\\"path\\\":\\\"$1\\\"\"
says change ',\"splices\":[[0,0,\"words\"]]'
%s
says begun
%s
"
  "A program in place of mgr-channel: what it does before it begins, and after.")

(defun mgr-tests-at-terminal (before after &rest body)
  "Have an Emacs at a terminal do BODY in a note, and return its text then.
The program in place of its mgr-channel does BEFORE and AFTER, as a shell."
  (let ((channel (mgr-tests-file "channel")) (process-environment (cons "TERM=vt100" process-environment)) emacs)
    (write-region (format mgr-tests-opens before after) nil channel nil 'quiet)
    (set-file-modes channel #o700)
    (setq emacs (start-process "emacs" nil "emacs" "-Q" "-nw" "-l" (locate-library "mgr") "--eval"
                               (format "%S" `(progn (setq mgr-channel-program ,channel)
                                                    (mgr-open ,(mgr-tests-file "note"))
                                                    (goto-char (point-max))
                                                    ,@body
                                                    (write-region nil nil ,(mgr-tests-file "text") nil 'quiet)
                                                    (kill-emacs)))))
    (set-process-query-on-exit-flag emacs nil)
    (unwind-protect
        (mgr-tests-await "it ends" (lambda () (not (process-live-p emacs))))
      (delete-process emacs))
    (should (equal (list (process-status emacs) (process-exit-status emacs)) '(exit 0)))
    (mgr-tests-text "text")))

(ert-deftest mgr-tests-deaf ()
  "An Emacs whose mgr-channel takes nothing any more says so, and goes on."
  (mgr-tests-in-folder
   (lambda ()
     (should (equal (mgr-tests-at-terminal "exec <&-" "sleep 1"
                                           '(insert ", more")
                                           '(while mgr-mode (sleep-for 0.1))
                                           '(insert (if (buffer-modified-p) "!" "?")))
                    "words, more!")))))

(ert-deftest mgr-tests-last-words ()
  "What mgr-channel said before it ended is done, and a hook may wait then."
  (mgr-tests-in-folder
   (lambda ()
     (should (equal (mgr-tests-at-terminal "" "cat >/dev/null; says change ',\"splices\":[[5,5,\", more\"]]'"
                                           '(add-hook 'after-change-functions (lambda (&rest _) (sleep-for 0.05)) nil t)
                                           ;; It has ended before any of that is read.
                                           '(advice-add 'mgr--await-end :before
                                                        (lambda (&rest _) (call-process "sleep" nil nil nil "0.5")))
                                           '(mgr-leave))
                    "words, more")))))

;;;; Two who write

(ert-deftest mgr-tests-places-stay ()
  "What others write leaves point, region, narrowing, the kill ring and the undo list."
  (mgr-tests-with-two
   (lambda (one other)
     (with-current-buffer one
       (goto-char 10)
       (push-mark 6 t t)
       (narrow-to-region 4 12)
       (kill-new "killed"))
     (with-current-buffer other
       (goto-char 1)
       (mgr-tests-insert "in front ")
       (goto-char 15)
       (mgr-tests-insert "<->")
       (goto-char (point-max))
       (mgr-tests-insert "behind"))
     (should (equal (mgr-tests-same one other) "in front some <->words of a textbehind"))
     (with-current-buffer one
       (should (= (point) 22))
       (should mark-active)
       (should (= (mark) 15))
       (should (equal (buffer-string) "e <->words "))
       (should (equal (car kill-ring) "killed"))
       (should (eq buffer-undo-list t))))
   "some words of a text"))

(ert-deftest mgr-tests-command-under-way ()
  "What others write waits while a command is under way, which may remember places."
  (mgr-tests-with-two
   (lambda (one other)
     (with-current-buffer one
       (mgr-tests-do replace
         (search-forward "words")
         (let ((found (match-data t)))
           (with-current-buffer other
             (insert "in front, "))
           (mgr-tests-await "the hub has it" (lambda () (string-search "front" (mgr-tests-text "hub/note"))))
           (sleep-for 0.5)
           (set-match-data found)
           (replace-match "signs"))))
     (should (equal (mgr-tests-same one other) "in front, some signs of a text")))
   "some words of a text"))

(ert-deftest mgr-tests-answered ()
  "A buffer that something else changes as others write is live no longer."
  (mgr-tests-with-two
   (lambda (one other)
     (with-current-buffer one
       (add-hook 'after-change-functions
                 (lambda (&rest _)
                   (unless (= ?! (char-before (point-max)))
                     (save-excursion (goto-char (point-max)) (insert "!"))))
                 nil t))
     (with-current-buffer other
       (mgr-tests-insert "more "))
     (mgr-tests-await "it has come" (lambda () (equal (mgr-tests-string one) "more some!")))
     (run-hooks 'post-command-hook)
     (should-not (buffer-local-value 'mgr-mode one))
     (should (eq (nth 2 (car mgr-tests-warned)) :warning)))
   "some"))

(ert-deftest mgr-tests-at-once ()
  "Two who write at the same time come to one text with the words of both."
  (mgr-tests-with-two
   (lambda (one other)
     (with-current-buffer one
       (goto-char 6)
       (mgr-tests-insert "many ")
       (mgr-tests-do delete (delete-region 1 6)))
     (with-current-buffer other
       (goto-char 3)
       (mgr-tests-insert "XYZ")
       (mgr-tests-do upcase (upcase-region 10 14)))
     (let ((text (mgr-tests-same one other)))
       (should (string-search "XYZ" text))
       (should (string-search "many " text))
       (should (string-search "ORDS" text))))
   "some words of a text"))

(ert-deftest mgr-tests-own-edits-alone ()
  "An undo takes back own edits alone."
  (mgr-tests-with-two
   (lambda (one other)
     (with-current-buffer one
       (mgr-tests-insert "mine "))
     (mgr-tests-same one other)
     (with-current-buffer other
       (goto-char 3)
       (mgr-tests-insert "THEIRS"))
     (should (equal (mgr-tests-same one other) "miTHEIRSne some"))
     (with-current-buffer one
       (mgr-tests-undo))
     (should (equal (mgr-tests-same one other) "THEIRSsome"))
     (with-current-buffer other
       (mgr-tests-undo))
     (should (equal (mgr-tests-same one other) "some")))
   "some"))

(ert-deftest mgr-tests-others-are-seen ()
  "The mode line says who is there, and an overlay where."
  (mgr-tests-with-two
   (lambda (one other)
     (with-current-buffer other
       (goto-char (point-max))
       (mgr-tests-insert "x"))
     (with-current-buffer one
       (mgr-tests-await "Other is seen" (lambda () (equal (mgr--lighter) " mgr[live: Other L3]")))
       (let ((overlay (cdar (mgr--session-others mgr--session))))
         (mgr-tests-await (format "Other is at %S, %S" overlay (mgr--session-places mgr--session))
                          (lambda () (= (overlay-start overlay) 9)))
         (should (equal (overlay-get overlay 'help-echo) "Other"))))
     (with-current-buffer other
       (mgr-leave))
     (with-current-buffer one
       (mgr-tests-await "Other is gone" (lambda () (equal (mgr--lighter) " mgr[live]")))
       (should-not (mgr--session-others mgr--session))))
   "a\nb\nccc"))

(ert-deftest mgr-tests-large ()
  "A paste of 1 MB comes to the other, and one undo takes it back."
  (mgr-tests-with-two
   (lambda (one other)
     (let ((pasted (apply #'concat (make-list 7000 "漢字 and some words, fifty signs in a line or so.\n"))))
       (with-current-buffer one
         (goto-char 3)
         (mgr-tests-insert pasted))
       (should (equal (mgr-tests-same one other) (concat "so" pasted "me")))
       (with-current-buffer one
         (mgr-tests-undo))
       (should (equal (mgr-tests-same one other) "some"))))
   "some"))

(ert-deftest mgr-tests-by-a-folder ()
  "Two write by files in a folder, and one who is away gets all later."
  (mgr-tests-in-folder
   (lambda ()
     (let ((place (concat "dir:" (mgr-tests-file "shared"))) one other)
       (dolist (name '("shared" "one" "other"))
         (make-directory (mgr-tests-file name)))
       (mgr-join place (mgr-tests-file "one/note"))
       (setq one (current-buffer))
       (mgr-tests-insert "words of one")
       (mgr-join place (mgr-tests-file "other/note"))
       (setq other (current-buffer))
       (mgr-tests-same one other)
       (mgr-leave)
       (with-current-buffer one
         (mgr-tests-insert ", and more"))
       (set-buffer-modified-p nil)
       (kill-buffer other)
       (mgr-join place (mgr-tests-file "other/note"))
       (should (equal (mgr-tests-same one (current-buffer)) "words of one, and more"))))))

(provide 'mgr-tests)
;;; mgr-tests.el ends here
