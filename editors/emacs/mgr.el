;;; mgr.el --- Write in one note with others  -*- lexical-binding: t; -*-

;; Copyright (c) 2026 the Cuffshale authors

;; Author: Cuffshale maintainers <maintainers@users.noreply.cuffshale.example>
;; Version: 0.1.0
;; Package-Requires: ((emacs "28.1"))
;; Keywords: files, comm
;; URL: https://cuffshale.example/mgr

;; Permission to use, copy, modify, and/or distribute this software for any
;; purpose with or without fee is hereby granted, provided that the above
;; copyright notice and this permission notice appear in all copies.
;;
;; THE SOFTWARE IS PROVIDED "AS IS" AND THE AUTHOR DISCLAIMS ALL WARRANTIES WITH
;; REGARD TO THIS SOFTWARE INCLUDING ALL IMPLIED WARRANTIES OF MERCHANTABILITY
;; AND FITNESS.  IN NO EVENT SHALL THE AUTHOR BE LIABLE FOR ANY SPECIAL, DIRECT,
;; INDIRECT, OR CONSEQUENTIAL DAMAGES OR ANY DAMAGES WHATSOEVER RESULTING FROM
;; LOSS OF USE, DATA OR PROFITS, WHETHER IN AN ACTION OF CONTRACT, NEGLIGENCE OR
;; OTHER TORTIOUS ACTION, ARISING OUT OF OR IN CONNECTION WITH THE USE OR
;; PERFORMANCE OF THIS SOFTWARE.

;;; Commentary:

;; `mgr-open' opens a note of mgr, and `mgr-join' one that others write in at
;; the same time.  The buffer is the note's text: each change is in its log at
;; once, and what others write comes in where they write it.  `mgr-leave', or
;; killing the buffer, leaves the note.
;;
;; C-/ takes back your own changes alone, whatever others wrote since.  Saving
;; is mgr's: its log has each change, and the text is put after a second without
;; one, or by C-x C-s.
;;
;; The programs mgr-channel and mgr have to be installed.

;;; Code:

(require 'cl-lib)
(require 'subr-x)

(defgroup mgr nil
  "Notes that several write in at the same time."
  :group 'files
  :prefix "mgr-")

(defcustom mgr-channel-program "mgr-channel"
  "The program that stands between Emacs and mgr."
  :type 'string)

(defcustom mgr-person nil
  "The name that others see; nil for that of the login."
  :type '(choice (const :tag "That of the login" nil) string))

(defcustom mgr-colours '("red" "green" "yellow3" "blue" "magenta" "cyan3")
  "The colours of others, by their numbers."
  :type '(repeat color))

(defcustom mgr-show-names nil
  "Whether the names of others stand where they are, in front of what stands there.
The cursor goes up and down by columns of the screen, which these names shift."
  :type 'boolean)

(defcustom mgr-seconds 30
  "For how many seconds Emacs waits for what mgr is asked."
  :type 'number)

(defconst mgr--most-typed 20
  "So many typed characters are one step for an undo.")

(defconst mgr--point-delay 0.2
  "After so many seconds others see where point is.")

(defconst mgr--unencodable "[\ud800-\udfff\x110000-\x3fff7f\x3fff80-\x3fffff]"
  "What no note takes: halves of characters, what is no character, raw bytes.")

(cl-defstruct (mgr--session (:constructor mgr--make-session) (:copier nil))
  "A note that is open, by this name; its file may have another PATH."
  process buffer name path
  ;; How many changes were made here, how many of these the log has, how many
  ;; of others were made here too, and the size of the text.
  (made 0) (kept 0) (seen 0) (size 0)
  ;; The text that is about to be changed or was just changed, where it is,
  ;; whether that change was sent, and whether it has to wait.
  old is-sent is-raw
  ;; Whether the next change is of the step of the one before, and how many
  ;; characters were typed in it.
  joins (typed 0)
  ;; Lines of mgr-channel that came in part, and those that have to wait.
  parts queue
  ;; What mgr-channel answered last.
  begun ask undone undo-place saved
  ;; What the mode line says, the overlays of others by their numbers, and where
  ;; they wrote last.
  (shown "") (fault "") others places
  ;; Where point was said to be, and the timer that says it.
  point timer
  ;; Why the session ends, if that is known, whether it was left, and whether it
  ;; has ended.
  why is-left is-over)

(defvar-local mgr--session nil
  "The session of this buffer.")
(put 'mgr--session 'permanent-local t)

(defvar mgr--sessions nil
  "The sessions that are open.")

(defvar mgr--is-commanded nil
  "Whether a command is under way, which may remember places as numbers.
What comes meanwhile waits, unless it reads in the minibuffer.")

(defvar mgr--is-awaiting nil
  "Whether it is mgr that is waited for: then nothing waits for a command.")

(defvar mgr--is-applying nil
  "Whether the change that is made is one of others.")

(defvar mgr--is-sending nil
  "Whether something is being sent: what comes meanwhile waits.")

(defvar mgr--is-taking nil
  "Whether something that came is being done: what comes meanwhile waits.")

;;;; What is sent and what comes

(defun mgr--send (session &rest members)
  "Send MEMBERS, an alist, to the mgr-channel of SESSION."
  (let ((line (concat (json-serialize (cons (cons 'seen (mgr--session-seen session)) members)) "\n")))
    (let ((mgr--is-sending t))
      ;; Where it has ended its sentinel says so.
      (ignore-errors (process-send-string (mgr--session-process session) line))))
  (unless mgr--is-taking
    (mgr--take-queue session)))

(defun mgr--filter (process string)
  "Take STRING, which PROCESS wrote.
If that has ended it is done later: an Emacs that reads what is left of it
crashes if whatever is done here, as a hook of the buffer, waits for something."
  (when-let* ((session (process-get process 'mgr-session)))
    (push string (mgr--session-parts session))
    (when (string-search "\n" string)
      (let ((lines (split-string (apply #'concat (nreverse (mgr--session-parts session))) "\n")))
        (setf (mgr--session-parts session) (last lines))
        (setf (mgr--session-queue session)
              (nconc (mgr--session-queue session) (butlast lines)))
        (unless (or mgr--is-taking (not (process-live-p process)))
          (mgr--take-queue session))))))

(defun mgr--take-queue (session)
  "Do what the lines say that came in SESSION, unless something is under way."
  (while (and (mgr--session-queue session) (not mgr--is-sending)
              (or mgr--is-awaiting (not mgr--is-commanded)))
    (let ((line (pop (mgr--session-queue session))) (mgr--is-taking t))
      (when (and (buffer-live-p (mgr--session-buffer session)) (not (mgr--session-is-over session)))
        (with-current-buffer (mgr--session-buffer session)
          (condition-case fault
              (mgr--take session (json-parse-string line :object-type 'alist :array-type 'list
                                                    :null-object nil :false-object nil))
            ;; The buffer may not be the note any more.
            (error (mgr--end session (error-message-string fault)))))))))

(defun mgr--take (session told)
  "Do what is TOLD in a line of the mgr-channel of SESSION."
  (let-alist told
    (pcase .op
      ("open" (setf (mgr--session-path session) .path))
      ("ask" (setf (mgr--session-ask session) told))
      ("begun" (setf (mgr--session-begun session) t))
      ("change" (mgr--change session .made .splices .by .undo))
      ("kept" (setf (mgr--session-kept session) (max .made (mgr--session-kept session))))
      ("saved" (mgr--note-saved session .made .why))
      ("undone" (setf (mgr--session-undone session) .why))
      ("state" (mgr--note-state session .shown .who))
      ("fault" (mgr--note-fault session .why))
      ("refused" (setf (mgr--session-why session) (format "a change was refused: %s" .why)))
      ("say" (message "%s: %s" (buffer-name) .text))
      ("over" (when (mgr--session-begun session)
                (set-process-filter (mgr--session-process session) #'ignore)
                (if (mgr--session-is-left session)
                    (setf (mgr--session-is-over session) t)
                  (run-with-timer 0 nil #'mgr--end-over session)))))))

(defun mgr--end-over (session)
  "End SESSION, as nothing more comes.
Not within a filter: an Emacs that waits for this process may crash if what it
said last is read meanwhile."
  (mgr--end session (or (mgr--session-why session) (mgr--told (mgr--session-process session)))))

(defun mgr--await (session done)
  "Wait for DONE to return non-nil while SESSION lives, not too long; return that."
  (let ((until (time-add nil mgr-seconds)) (process (mgr--session-process session))
        (mgr--is-awaiting t) value)
    (mgr--take-queue session)
    (while (not (or (setq value (funcall done))
                    (not (process-live-p process))
                    (time-less-p until nil)))
      (accept-process-output process 0.1))
    (mgr--take-queue session)
    (or value (funcall done))))

(defun mgr--no-answer (session)
  "Say that mgr was asked in vain in SESSION."
  (if (process-live-p (mgr--session-process session))
      (user-error "%s: mgr has not answered for %s seconds; what it took it will do"
                  (mgr--session-path session) mgr-seconds)
    (user-error "%s: mgr has ended" (mgr--session-path session))))

;;;; Changes of others

(defun mgr--change (session made splices by is-undo)
  "Make SPLICES in the buffer of SESSION, which has to be after MADE own ones.
Else they come again, as the text has to have them then.  BY is the number of
who made them, and IS-UNDO says that an undo did."
  (dolist (splice splices)
    (when (= made (mgr--session-made session))
      (pcase-let* ((`(,lo ,hi ,text) splice) (end (+ lo (length text))))
        (mgr--put session lo hi text)
        (cl-incf (mgr--session-seen session))
        (when is-undo
          (setf (mgr--session-undo-place session) (copy-marker (1+ end))))
        (when by
          (mgr--note-place session by (1+ end))))))
  (mgr--send session '(op . "seen")))

(defun mgr--note-place (session number place)
  "Take note in SESSION that the person of this NUMBER wrote before PLACE."
  (let ((marker (or (alist-get number (mgr--session-places session))
                    (setf (alist-get number (mgr--session-places session)) (make-marker))))
        (overlay (alist-get number (mgr--session-others session))))
    (set-marker marker place)
    (when overlay
      (mgr--show-at overlay place))))

(defun mgr--put (session lo hi text)
  "Put TEXT in place of what stands from LO to HI in the buffer of SESSION.
Point, region, narrowing and the kill ring stay."
  (let ((mgr--is-applying t) (inhibit-read-only t) (deactivate-mark nil))
    (save-excursion
      (save-restriction
        (widen)
        (goto-char (1+ lo))
        (delete-region (point) (1+ hi))
        (insert text)
        ;; Not the size of the buffer: what other hooks may do is to be seen.
        (cl-incf (mgr--session-size session) (- (length text) (- hi lo)))
        (setf (mgr--session-old session) nil)))))

;;;; Changes of one's own

(defun mgr--before-change (begin end)
  "Keep the text from BEGIN to END, which is about to be changed.
Emacs may say this again before it says that the first change was made: then
what was kept is as it was before both."
  (when (and mgr--session (not mgr--is-applying))
    (let* ((session mgr--session) (old (mgr--session-old session)))
      (if (or (not old) (and (mgr--session-is-sent session) (mgr--is-as-sent session)))
          (setf (mgr--session-old session) (cons begin (mgr--text begin end)))
        (mgr--widen-old session begin end))
      (setf (mgr--session-is-sent session) nil))))

(defun mgr--is-as-sent (session)
  "Return whether the buffer of SESSION has the size of the text that was sent."
  (= (mgr--session-size session) (buffer-size)))

(defun mgr--old-end (session)
  "Return the end by now of what SESSION remembers from before.
All that changed since is within it."
  (pcase-let ((`(,begin . ,text) (mgr--session-old session)))
    (+ begin (length text) (- (buffer-size) (mgr--session-size session)))))

(defun mgr--widen-old (session begin end)
  "Have SESSION keep the text from BEGIN to END too, and what is between."
  (pcase-let ((`(,from . ,text) (mgr--session-old session)) (to (mgr--old-end session)))
    (setf (mgr--session-old session)
          (cons (min begin from)
                (concat (when (< begin from) (mgr--text begin from))
                        text
                        (when (> end to) (mgr--text to end)))))))

(defun mgr--text (begin end)
  "Return what stands from BEGIN to END, visible or not."
  (save-restriction
    (widen)
    (buffer-substring-no-properties begin end)))

(defun mgr--after-change (begin end length)
  "Send the change from BEGIN to END, where LENGTH characters were before.
After an error in this Emacs would say nothing of further changes."
  (when (and mgr--session (not mgr--is-applying))
    (condition-case fault
        (mgr--note-change mgr--session begin end length)
      (error (mgr--end mgr--session (error-message-string fault))))))

(defun mgr--note-change (session begin end length)
  "Send the change from BEGIN to END in SESSION, of LENGTH characters before.
One with raw bytes waits for the end of the command, which may count them."
  (let* ((old (mgr--session-old session))
         (is-told (and old (<= (car old) begin) (<= end (mgr--old-end session)))))
    (cond ((and is-told mgr--is-commanded
                (or (mgr--session-is-raw session)
                    (string-match-p mgr--unencodable (mgr--text begin end))))
           (setf (mgr--session-is-raw session) t))
          (is-told (mgr--send-change session))
          ((= (buffer-size) (+ (mgr--session-size session) (- end begin length)))
           (mgr--splice session (1- begin) (+ begin length -1) (mgr--encodable-text begin end)))
          (t (error "A change was not told beforehand")))))

(defun mgr--send-change (session)
  "Send what differs from what SESSION remembers from before."
  (pcase-let* ((`(,begin . ,old) (mgr--session-old session))
               (new (mgr--encodable-text begin (mgr--old-end session)))
               (`(,front . ,back) (mgr--in-common old new)))
    (setf (mgr--session-old session) (cons begin new) (mgr--session-is-sent session) t
          (mgr--session-is-raw session) nil)
    (unless (= front (length old) (length new))
      (mgr--splice session (+ begin front -1) (+ begin (length old) (- back) -1)
                   (substring new front (- (length new) back))))))

(defun mgr--send-rest (session)
  "Send what SESSION has not sent yet."
  (when (and (mgr--session-old session) (not (mgr--session-is-sent session)))
    (mgr--send-change session)))

(defun mgr--encodable-text (begin end)
  "Delete what no note takes from BEGIN to END, and return what stands there then."
  (let ((text (mgr--text begin end)))
    (if (not (string-match-p mgr--unencodable text))
        text
      (message "Raw bytes are left out: no note takes them")
      (let ((mgr--is-applying t) (inhibit-read-only t))
        (save-match-data
          (save-excursion
            (save-restriction
              (widen)
              (goto-char end)
              (while (re-search-backward mgr--unencodable begin t)
                (delete-char 1))))))
      (replace-regexp-in-string mgr--unencodable "" text t t))))

(defun mgr--in-common (old new)
  "Return how many characters OLD and NEW have in common, at begin and end."
  (let* ((least (min (length old) (length new)))
         (front (mgr--front old new))
         (back (if (< front least) (mgr--front (reverse old) (reverse new)) 0)))
    (cons front (min back (- least front)))))

(defun mgr--front (old new)
  "Return how many characters OLD and NEW have in common at their begin."
  (let ((place (compare-strings old nil nil new nil nil)))
    (if (eq place t) (length old) (1- (abs place)))))

(defun mgr--splice (session lo hi text)
  "Send that TEXT stands in place of what stood from LO to HI, in SESSION."
  (let ((joins (mgr--joins session)))
    (cl-incf (mgr--session-made session))
    (setf (mgr--session-size session) (buffer-size))
    (mgr--send session '(op . "splice") `(lo . ,lo) `(hi . ,hi) `(text . ,text)
               `(joins . ,(if joins t :false)))))

(defun mgr--joins (session)
  "Return whether a change in SESSION is of the step of the one before.
All changes of a command are one step, and so are some typed characters."
  (let* ((is-typed (eq this-command 'self-insert-command))
         (goes-on (or (mgr--session-joins session)
                      (and is-typed (< 0 (mgr--session-typed session) mgr--most-typed)))))
    (setf (mgr--session-typed session)
          (cond ((not is-typed) 0) (goes-on (1+ (mgr--session-typed session))) (t 1)))
    (setf (mgr--session-joins session) t)
    goes-on))

(defun mgr--before-command ()
  "Have what others write wait for the end of the command that begins."
  (setq mgr--is-commanded t))

(defun mgr--after-command ()
  "End a step, and do what came while a command was under way."
  (setq mgr--is-commanded nil)
  (dolist (session mgr--sessions)
    (when (buffer-live-p (mgr--session-buffer session))
      (with-current-buffer (mgr--session-buffer session)
        (condition-case fault
            (mgr--end-step session)
          (error (mgr--end session (error-message-string fault))))
        (unless mgr--is-taking
          (mgr--take-queue session))))))

(defun mgr--end-step (session)
  "End a step of SESSION, and see to it that others see where point is."
  (setf (mgr--session-joins session) nil)
  (unless (eq this-command 'self-insert-command)
    (setf (mgr--session-typed session) 0))
  (mgr--send-rest session)
  (cond ((not (mgr--is-as-sent session))
         (mgr--end session "the buffer was changed in a way that Emacs tells nobody of"))
        ((not (or (mgr--session-timer session) (string-empty-p (mgr--session-shown session))
                  (eql (point) (mgr--session-point session))))
         (setf (mgr--session-timer session)
               (run-with-timer mgr--point-delay nil #'mgr--say-point session)))))

(defun mgr--say-point (session)
  "Say where point is in the buffer of SESSION, if that is news."
  (setf (mgr--session-timer session) nil)
  (when (buffer-live-p (mgr--session-buffer session))
    (with-current-buffer (mgr--session-buffer session)
      (when (and (eq mgr--session session) (not (eql (point) (mgr--session-point session))))
        (setf (mgr--session-point session) (point))
        (mgr--send session '(op . "point")
                   `(line . ,(1- (line-number-at-pos nil t)))
                   `(column . ,(- (point) (save-restriction (widen) (line-beginning-position)))))))))

;;;; Undo

(defun mgr--undo (kind goes-on)
  "Take back a step of one's own, of this KIND.
GOES-ON says that the command before did so too."
  (let ((session (mgr--live-session)))
    (setf (mgr--session-undone session) nil (mgr--session-undo-place session) nil
          (mgr--session-joins session) nil)
    (mgr--send session '(op . "undo") `(kind . ,kind) `(again . ,(if goes-on t :false)))
    (unless (mgr--await session (lambda () (mgr--session-undone session)))
      (mgr--no-answer session))
    (unless (string-empty-p (mgr--session-undone session))
      (user-error "%s" (mgr--session-undone session)))
    (when-let* ((place (mgr--session-undo-place session)))
      (goto-char place)
      (set-marker place nil))))

(defun mgr-undo (&optional count)
  "Take back the last step of your own; again, the one before.
What others wrote stays.  After another command this takes back the undos
themselves, as `undo' does.  COUNT says how many steps it is."
  (interactive "p")
  (let ((goes-on (eq last-command 'mgr-undo)))
    (dotimes (_ (or count 1))
      (mgr--undo "undo" goes-on)
      (setq goes-on t)))
  (setq this-command 'mgr-undo))

(defun mgr-undo-only (&optional count)
  "Take back the newest step of your own that stands; never an undo.
COUNT says how many steps it is."
  (interactive "p")
  (dotimes (_ (or count 1))
    (mgr--undo "only" nil)))

(defun mgr-redo (&optional count)
  "Take back the last undo, or COUNT of them."
  (interactive "p")
  (dotimes (_ (or count 1))
    (mgr--undo "redo" nil)))

;;;; Saving

(defun mgr--note-saved (session made why)
  "Take note in SESSION that the text was put after MADE own edits, or WHY not."
  (setf (mgr--session-saved session) (cons made why))
  (when (and (string-empty-p why) (= made (mgr--session-made session)))
    (set-buffer-modified-p nil)))

(defun mgr--note-fault (session why)
  "Take note in SESSION of WHY the log was not written; if WHY is empty it was."
  (setf (mgr--session-fault session) why)
  (unless (string-empty-p why)
    (message "%s: %s" (buffer-name) why))
  (force-mode-line-update))

(defun mgr-save ()
  "Have mgr save the note, log and text."
  (interactive)
  (let ((session (mgr--live-session)))
    (setf (mgr--session-saved session) nil)
    ;; Whoever ends Emacs has to be able to say no to what fails, or takes long.
    (setq buffer-save-without-query nil)
    (message "Saving file %s..." (mgr--session-path session))
    (mgr--send session '(op . "save"))
    (let ((why (mgr--await session (lambda () (mgr--saved session (mgr--session-made session))))))
      (cond ((not why) (mgr--no-answer session))
            ((string-empty-p why)
             (setq buffer-save-without-query t)
             (message "Wrote %s" (mgr--session-path session)))
            (t (error "%s" why))))))

(defun mgr--saved (session made)
  "Return why the text of SESSION was not put, and an empty text if it was.
Return nil if that is not known, or if it has less than MADE changes."
  (pcase-let ((`(,count . ,why) (mgr--session-saved session)))
    (and why (or (>= count made) (not (string-empty-p why))) why)))

(defun mgr--write ()
  "Have mgr write the buffer; return nil if it visits another file by now."
  (if (equal buffer-file-name (mgr--session-path (mgr--live-session)))
      (progn (mgr-save) t)
    (mgr-leave)
    nil))

(defun mgr--revert (&rest _)
  "Say that the buffer is the note."
  (user-error "What this buffer shows is the note"))

;;;; Others

(defun mgr--note-state (session shown who)
  "Show in SESSION how others are reached, by SHOWN, and WHO they are."
  (setf (mgr--session-shown session) shown)
  (pcase-dolist (`(,number . ,overlay) (mgr--session-others session))
    (unless (assq number who)
      (delete-overlay overlay)))
  (setf (mgr--session-others session)
        (mapcar (lambda (each) (cons (car each) (mgr--overlay session each))) who))
  (force-mode-line-update))

(defun mgr--overlay (session person)
  "Return the overlay of PERSON in SESSION: a number, a name and a line."
  (pcase-let* ((`(,number ,name ,line) person)
               (overlay (alist-get number (mgr--session-others session)))
               (place (alist-get number (mgr--session-places session))))
    (unless overlay
      (setq overlay (make-overlay 1 1))
      (overlay-put overlay 'mgr-person (cons number name))
      (mgr--show-at overlay (or place 1)))
    (save-excursion
      (save-restriction
        (widen)
        (unless (= line (line-number-at-pos (overlay-start overlay)))
          (goto-char (point-min))
          (forward-line (1- line))
          (mgr--show-at overlay (if (and place (= line (line-number-at-pos place)))
                                    place
                                  (point))))))
    overlay))

(defun mgr--show-at (overlay place)
  "Have OVERLAY show that somebody is at PLACE."
  (pcase-let* ((`(,number . ,name) (overlay-get overlay 'mgr-person))
               (colour (nth (mod number (length mgr-colours)) mgr-colours))
               (face `(:background ,colour :foreground "black")))
    (save-excursion
      (save-restriction
        (widen)
        (goto-char place)
        (move-overlay overlay place (if (eolp) place (1+ place)))
        (overlay-put overlay 'face face)
        (overlay-put overlay 'help-echo name)
        (overlay-put overlay 'before-string (when mgr-show-names (propertize name 'face face)))
        ;; At the end of a line there is no character to colour.
        (overlay-put overlay 'after-string
                     (when (eolp) (propertize " " 'face face 'help-echo name 'cursor t)))))))

(defun mgr--lighter ()
  "Return the part of the mode line about the note."
  (if (or (not mgr--session) (mgr--session-is-over mgr--session))
      ""
    (let ((told (mgr--session-shown mgr--session)) (fault (mgr--session-fault mgr--session)))
      (cond ((not (string-empty-p fault)) (format " mgr[%s]" fault))
            ((string-empty-p told) " mgr")
            (t (format " mgr[%s]" told))))))

;;;; Begin and end

(defvar mgr-mode-map
  (let ((map (make-sparse-keymap)))
    (define-key map [remap undo] #'mgr-undo)
    (define-key map [remap undo-only] #'mgr-undo-only)
    (define-key map [remap undo-redo] #'mgr-redo)
    (define-key map [remap save-buffer] #'mgr-save)
    map)
  "The keys of `mgr-mode'.")

(define-minor-mode mgr-mode
  "Write in a note of mgr, with others.
`mgr-open' and `mgr-join' turn this on, and `mgr-leave' turns it off.

\\{mgr-mode-map}"
  :lighter (:eval (mgr--lighter))
  (cond ((and mgr-mode mgr--session) (mgr--set-up))
        (mgr-mode (setq mgr-mode nil) (user-error "Use `mgr-open' or `mgr-join'"))
        (mgr--session (mgr-leave))))

(put 'mgr-mode 'permanent-local t)

(defconst mgr--hooks
  '((before-change-functions . mgr--before-change)
    (after-change-functions . mgr--after-change)
    (write-contents-functions . mgr--write)
    (kill-buffer-query-functions . mgr--may-be-killed)
    (kill-buffer-hook . mgr--leave-killed)
    (after-set-visited-file-name-hook . mgr--leave-renamed)
    (after-change-major-mode-hook . mgr--set-up))
  "What is done in the buffer of a note.")

;; A change of the major mode has to leave these: what is not sent is lost.
(dolist (hook mgr--hooks)
  (put (cdr hook) 'permanent-local-hook t))

(defconst mgr--settings
  '((create-lockfiles . nil) (buffer-auto-save-file-name . nil) (backup-inhibited . t)
    (require-final-newline . nil) (global-auto-revert-ignore-buffer . t) (buffer-save-without-query . t)
    (buffer-undo-list . t) (buffer-file-coding-system . utf-8-unix)
    (revert-buffer-function . mgr--revert))
  "Settings of the buffer of a note: all that Emacs does to files is mgr's.")

(defconst mgr--watches
  '((pre-command-hook . mgr--before-command) (post-command-hook . mgr--after-command)
    (minibuffer-setup-hook . mgr--after-command))
  "What is done at each command, of any buffer: it may change a note.")

(defun mgr--watch (sessions)
  "Have these SESSIONS be the open ones."
  (setq mgr--sessions sessions)
  (unless sessions
    (setq mgr--is-commanded nil))
  (pcase-dolist (`(,hook . ,function) mgr--watches)
    (if sessions
        (add-hook hook function)
      (remove-hook hook function))))

(defun mgr--set-up ()
  "Have the buffer of a note be one."
  (pcase-dolist (`(,variable . ,value) mgr--settings)
    (set (make-local-variable variable) value))
  (pcase-dolist (`(,hook . ,function) mgr--hooks)
    (add-hook hook function nil t))
  (when (bound-and-true-p auto-revert-mode)
    (auto-revert-mode -1))
  ;; mgr writes the file at any time, which is no change by another program.
  (clear-visited-file-modtime))

(declare-function auto-revert-mode "autorevert")

(defun mgr--take-down (is-left)
  "Have the buffer be an ordinary one.
IS-LEFT says that mgr has ended well: else it may still put the text, and nobody
is to be asked about that who types on or saves."
  (pcase-dolist (`(,variable . ,_) mgr--settings)
    (unless (memq variable '(buffer-undo-list buffer-file-coding-system))
      (kill-local-variable variable)))
  (pcase-dolist (`(,hook . ,function) mgr--hooks)
    (remove-hook hook function t))
  (setq buffer-undo-list nil)
  (auto-save-mode (if auto-save-default 1 -1))
  (when (and is-left buffer-file-name (file-exists-p buffer-file-name))
    (set-visited-file-modtime)))

(defun mgr--live-session ()
  "Return the session of this buffer, once it has sent all of that.
It is an error if there is none."
  (unless (and mgr--session (not (mgr--session-is-over mgr--session)))
    (user-error "This buffer is no open note"))
  (mgr--send-rest mgr--session)
  mgr--session)

(defun mgr--start (name words)
  "Begin a session with the note NAME, for which mgr-channel has these WORDS too.
Return its buffer."
  (unless (fboundp 'json-serialize)
    (user-error "This Emacs was built without JSON"))
  (unless (executable-find mgr-channel-program)
    (user-error "%s is not installed: see `mgr-channel-program'" mgr-channel-program))
  (let* ((buffer (generate-new-buffer (file-name-nondirectory name)))
         (told (generate-new-buffer " *mgr-channel*" t))
         (session (mgr--make-session :buffer buffer :name name))
         (process-adaptive-read-buffering nil)
         (default-directory (file-name-directory name)))
    (setf (mgr--session-process session)
          (make-process :name "mgr-channel" :coding 'utf-8-unix :connection-type 'pipe :noquery t
                        :command `(,mgr-channel-program ,name ,@words
                                                        ,@(when mgr-person (list "--as" mgr-person)))
                        :filter #'mgr--filter :sentinel #'mgr--sentinel
                        :stderr (make-pipe-process :name "mgr-channel-told" :buffer told :noquery t
                                                   :sentinel #'ignore)))
    (process-put (mgr--session-process session) 'mgr-session session)
    (process-put (mgr--session-process session) 'mgr-told told)
    (with-current-buffer buffer
      (setq default-directory (file-name-directory name) buffer-undo-list t)
      (mgr--await-begin session)
      (mgr--visit session name))
    buffer))

(defun mgr--await-begin (session)
  "Wait until the text of SESSION is there; answer what is asked meanwhile."
  (let ((process (mgr--session-process session)) (mgr--is-awaiting t)
        (read-process-output-max (ash 1 20)))
    (unwind-protect
        (while (and (process-live-p process) (not (mgr--session-begun session)))
          (accept-process-output process 0.1)
          (when-let* ((asked (mgr--session-ask session)))
            (setf (mgr--session-ask session) nil)
            (mgr--answer session asked)))
      (unless (mgr--session-begun session)
        (setf (mgr--session-is-left session) t)
        (kill-buffer (mgr--session-buffer session))
        (delete-process process)))
    (unless (mgr--session-begun session)
      (user-error "%s" (mgr--told process)))))

(defun mgr--answer (session asked)
  "Ask the person what mgr-channel ASKED in SESSION, and send the answer."
  (let-alist asked
    (let ((letter (read-char-choice (format "%s%s? " .question (string-join .letters ", "))
                                    (mapcar #'string-to-char .letters))))
      (mgr--send session '(op . "answer") `(letter . ,(char-to-string letter))))))

(defun mgr--visit (session name)
  "Have this buffer, which has the text of SESSION, visit the file NAME.
At a hub of this machine it is the file of a copy."
  (let ((path (mgr--session-path session)))
    (setq buffer-file-name (if (file-equal-p (file-name-directory path) (file-name-directory name)) name path)
          buffer-file-truename (abbreviate-file-name (file-truename buffer-file-name)))
    (setf (mgr--session-path session) buffer-file-name))
  (goto-char (point-min))
  (let ((mgr--is-applying t))
    (normal-mode t))
  (setf (mgr--session-size session) (buffer-size))
  (setq mgr--session session)
  (mgr--watch (cons session mgr--sessions))
  (set-buffer-modified-p nil)
  (mgr-mode 1)
  (let ((told (mgr--told (mgr--session-process session) t)))
    (unless (string-empty-p told)
      (message "%s" told))))

(defun mgr--told (process &optional goes-on)
  "Return what PROCESS said on standard error since this was last asked.
Unless it GOES-ON that is the last."
  (let ((buffer (process-get process 'mgr-told)))
    (when-let* ((pipe (get-buffer-process buffer)))
      (accept-process-output pipe (if goes-on 0.01 0.2)))
    (if (not (buffer-live-p buffer))
        ""
      (prog1 (string-trim (with-current-buffer buffer (delete-and-extract-region (point-min) (point-max)))
                          "\\(?:usage:\\(?:.\\|\n\\)*? error:\\)?[ \n]*")
        (unless goes-on
          (let ((kill-buffer-query-functions nil))
            (kill-buffer buffer)))))))

(defun mgr--sentinel (process _event)
  "Take note that PROCESS ended."
  (when-let* ((session (process-get process 'mgr-session)))
    (unless (or (process-live-p process) (not (mgr--session-begun session)))
      (setf (mgr--session-queue session)
            (nconc (mgr--session-queue session) (list "{\"op\":\"over\"}")))
      (unless mgr--is-taking
        (mgr--take-queue session)))))

(defun mgr--end (session why)
  "End SESSION; WHY is what was wrong, and empty if nothing was."
  (setf (mgr--session-is-over session) t)
  (when (process-live-p (mgr--session-process session))
    (ignore-errors (process-send-eof (mgr--session-process session))))
  (when (buffer-live-p (mgr--session-buffer session))
    (with-current-buffer (mgr--session-buffer session)
      (when (eq mgr--session session)
        (let* ((lacks (> (mgr--session-made session) (mgr--session-kept session)))
               (is-bad (or lacks (not (mgr--session-is-left session)))))
          (setq mgr--session nil mgr-mode nil)
          (mgr--watch (remq session mgr--sessions))
          (mapc (lambda (each) (delete-overlay (cdr each))) (mgr--session-others session))
          (mgr--take-down (not is-bad))
          (set-buffer-modified-p is-bad)
          (cond (is-bad (mgr--warn lacks why))
                ((not (string-empty-p why)) (message "%s: %s" (buffer-name) why)))
          (force-mode-line-update))))))

(defun mgr--warn (lacks why)
  "Say that the note is not open any more and WHY; LACKS, that the buffer has more."
  (setq buffer-offer-save t)
  (display-warning 'mgr
                   (format "%s is not live any more%s.  %s" (or buffer-file-name (buffer-name))
                           (if (string-empty-p why) "" (concat ": " why))
                           (if lacks
                               "This buffer has words that the note lacks: save it, and open the note again"
                             "The note has all that this buffer has: `mgr-open' opens it again"))
                   (if lacks :error :warning)))

(defun mgr--leave (session)
  "Leave SESSION, once all is saved; \\[keyboard-quit] has mgr go on alone."
  (let ((process (mgr--session-process session)) (mgr--is-awaiting t))
    (setf (mgr--session-is-left session) t)
    (condition-case nil
        (progn (ignore-errors (process-send-eof process))
               (mgr--await-end session process)
               (mgr--take-queue session)
               (mgr--end session (mgr--told process)))
      (quit (message "mgr goes on to save %s" (mgr--session-path session))))))

(defun mgr--await-end (session process)
  "Wait until PROCESS, that of SESSION, has ended, or has said that it is about to.
An Emacs that a signal ends is not told of the end of a process, and waits for
output for ever once there is none."
  (let ((until (time-add nil 2)))
    (while (and (process-live-p process) (not (mgr--session-is-over session)))
      (accept-process-output process 0.1)
      (when (and until (time-less-p until nil))
        (setq until nil)
        (message "Waiting for mgr to save %s; C-g leaves that to it" (mgr--session-path session))))
    ;; What it said last may not be taken yet.
    (while (and (not (mgr--session-is-over session)) (accept-process-output process 0.05)))))

(defun mgr--is-note ()
  "Return whether this buffer is a note that is open, and no clone of it."
  (and mgr--session (eq (current-buffer) (mgr--session-buffer mgr--session))))

(defun mgr--may-be-killed ()
  "Have mgr put the text, so that nobody is asked whether it may go."
  (when (and (mgr--is-note) (buffer-modified-p) (not (mgr--session-is-left mgr--session)))
    ;; Else it is asked whether it may go.
    (condition-case nil
        (mgr-save)
      ((error quit) nil)))
  t)

(defun mgr--leave-killed ()
  "Leave the note whose buffer is killed."
  (when (mgr--is-note)
    (mgr--leave mgr--session)
    ;; It may go on alone.
    (mgr--watch (remq mgr--session mgr--sessions))))

(defun mgr--leave-renamed ()
  "Leave the note, as the buffer is of another file by now."
  (when (and (mgr--is-note) (not (equal buffer-file-name (mgr--session-path mgr--session))))
    (let ((path (mgr--session-path mgr--session)))
      (mgr-leave)
      ;; That file may lack what was written last.
      (set-buffer-modified-p t)
      (message "The note %s is left; this buffer is of %s" path (or buffer-file-name "no file")))))

(defun mgr--leave-all ()
  "Leave all notes."
  (mapc #'mgr--leave mgr--sessions))

(add-hook 'kill-emacs-hook #'mgr--leave-all)

(defun mgr--enter (name words)
  "Go to the buffer of the note NAME; if it is not open, open it with these WORDS."
  (let* ((name (mgr--checked (string-remove-suffix ".ops" name)))
         (session (cl-find name mgr--sessions :key #'mgr--session-name :test #'equal))
         (buffer (if session (mgr--session-buffer session) (find-buffer-visiting name))))
    (cond ((and buffer (buffer-local-value 'mgr--session buffer)) (ignore buffer))
          ((and buffer (buffer-modified-p buffer)) (user-error "%s has changes: save it first" buffer))
          (t (when buffer (kill-buffer buffer))
             (setq buffer (mgr--start name words))))
    (pop-to-buffer-same-window buffer)))

(defun mgr--checked (name)
  "Return the full NAME of a note; it is an error where none may be."
  (let* ((name (expand-file-name name)) (folder (file-name-directory name)))
    (cond ((file-remote-p name) (user-error "%s: a note is a file of this machine" name))
          ((file-directory-p name) (user-error "%s is a folder" name))
          ((not (file-directory-p folder)) (user-error "%s is not there: `make-directory' makes it" folder))
          (t name))))

;;;###autoload
(defun mgr-open (name)
  "Open the note NAME, the file of its text."
  (interactive "FNote: ")
  (mgr--enter name nil))

;;;###autoload
(defun mgr-join (place &optional name)
  "Write with all others at PLACE, in a copy of the note by this NAME.
PLACE is HOST:PATH, the note of an mgr-hub by ssh; a port of this machine; or
dir:FOLDER, git:REPOSITORY#BRANCH or redis://HOST/KEY."
  (interactive
   (let ((place (read-string "Join (HOST:NOTE, a port, dir:, git:, redis:): ")))
     (list place (read-file-name "Note: " nil nil nil (mgr--name-of place)))))
  (mgr--enter (or name (expand-file-name (mgr--name-of place))) (list "--with" place)))

(defun mgr--name-of (place)
  "Return a name for a copy of the note at PLACE."
  (let ((name (replace-regexp-in-string "\\`.*[:/#]" "" place)))
    (if (string-match-p "\\`[0-9]*\\'" name) "note" name)))

(defun mgr-leave ()
  "Leave the note, which is saved; its buffer stays, as that of a file."
  (interactive)
  (mgr--leave (mgr--live-session)))

(provide 'mgr)
;;; mgr.el ends here
