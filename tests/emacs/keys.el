;;; keys.el --- Tells how a seat on a terminal is  -*- lexical-binding: t; -*-

;; emacs -nw -Q -L clients/emacs -l tests/emacs/keys.el PORT FOLDER
;;
;; It keeps in the file FOLDER/keys.status how the seat is, as JSON, whenever Emacs waits for a
;; key.  So who presses keys sees that Emacs has come to the question that the next one answers.

(require 'troop)

(defvar keys-told nil "What was told last.")

(defun keys-asks ()
  "Return what waits for a key within a command, as a word, or the empty string."
  (cond (this-command (symbol-name this-command))
        ((active-minibuffer-window) "minibuffer")
        (t "")))

(defun keys-waiting (seat)
  "Return how many entries have come to SEAT and aren't taken."
  (let ((down (troop--link seat 'down)))
    (if down (length (process-get down 'lines)) 0)))

(defun keys-status (seat)
  "Return how SEAT is, as a line of JSON."
  (troop--line `((asks . ,(keys-asks))
                 (awaits . ,(troop-seat-awaits seat))
                 (state . ,(format "%s" (troop-seat-state seat)))
                 (taken . ,(or (troop-seat-taken seat) 0))
                 (text . ,(with-current-buffer (troop-seat-buffer seat)
                            (buffer-substring-no-properties (point-min) (point-max))))
                 (waiting . ,(keys-waiting seat)))))

(defun keys-tell (seat file)
  "Tell in FILE how SEAT is, where that isn't told yet."
  (save-match-data
    (let ((coding-system-for-write 'binary)
          (status (keys-status seat)))
      (unless (equal status keys-told)
        (write-region status nil (concat file ".new") nil 'silent)
        (rename-file (concat file ".new") file t)
        (setq keys-told status)))))

(pcase-let ((`(,port ,folder) command-line-args-left))
  (setq command-line-args-left nil)
  (with-current-buffer (troop-connect "127.0.0.1" (string-to-number port) "keys" "lines")
    (run-at-time 0 0.02 #'keys-tell troop--seat (expand-file-name "keys.status" folder))))
;;; keys.el ends here
