;;; seat.el --- A seat that types at random against a server  -*- lexical-binding: t; -*-

;; emacs -Q --batch -L clients/emacs -l tests/emacs/seat.el PORT NAME SEED SECONDS FOLDER PASTE PROGRAM
;;
;; It types for SECONDS, pastes PASTE characters that take six bytes each, and then keeps in the
;; file FOLDER/NAME.status how many entries it took and whether anything is awaited.  Once there
;; is the file FOLDER/finish it writes what it holds to FOLDER/NAME.result, and leaves.  With a
;; PROGRAM it has an interpreter beside it, which writes what it is given to FOLDER/NAME.heard.

(require 'cl-lib)
(require 'troop)

(defvar seat-heard nil "Evaluations that were heard, the newest first.")
(defvar seat-moved 0 "How many edits by others were taken.")
(defvar seat-crossed 0 "How many of them were moved past an own one.")

(defconst seat-patience 60 "Seconds after which a wait is given up.")

(defun seat-choose (&rest choices)
  "Return one of CHOICES."
  (nth (random (length choices)) choices))

(defun seat-wait (what test)
  "Take what comes until TEST holds, and fail where WHAT doesn't come."
  (let ((end (+ (float-time) seat-patience)))
    (while (not (funcall test))
      (when (> (float-time) end) (error "Waited in vain for %s" what))
      (accept-process-output nil 0.02))))

(defun seat-is-calm (seat)
  "Return whether SEAT awaits nothing and has nothing to go out."
  (and (= (troop-seat-awaits seat) 0)
       (null (troop-seat-asked seat))
       (null (troop-seat-queue seat))))

;;;; What is typed

(defun seat-type ()
  "Do something to the text, in one command."
  (let* ((here (1+ (random (1+ (buffer-size)))))
         (there (min (point-max) (+ here (random 40)))))
    (goto-char here)
    (pcase (random 22)
      ((or 0 1 2 3 4) (dotimes (_ (1+ (random 5)))
                        (insert (aref "abc \nxyzé漢😀\u0301\"\\\r\0" (random 17)))))
      (5 (insert (seat-choose "wörd one two " "\n\n" "d1 $ sound \"bd*2\"\n" "\u2028😀😀")))
      ((or 6 7) (delete-region here (min there (+ here 6))))
      (8 (kill-line) (yank))
      (9 (transpose-words 1))
      (10 (upcase-region here there))
      (11 (indent-rigidly here there (- (random 5) 2)))
      (12 (goto-char (point-min))
          (cl-loop repeat 40 while (re-search-forward "[aeiou]" nil t) do (replace-match "E" t)))
      (13 (fill-region here there))
      ((or 14 15) (setq last-command (seat-choose 'other 'undo)) (undo))
      (16 (save-restriction
            (narrow-to-region here there)
            (goto-char (point-max))
            (insert "N")
            (accept-process-output nil 0.01)))
      (17 (sort-lines nil here there))
      (18 (let ((inhibit-modification-hooks t)) (insert "s")))
      ((or 19 20) (troop-eval-block))
      (_ (seat-type-seldom)))))

(defun seat-type-seldom ()
  "Do something that would spoil the text if it came often."
  (pcase (random 8)
    (0 (when (< (buffer-size) 100000) (troop-reset "new\n\ntext é😀\n")))
    (1 (text-mode))
    (2 (insert (string #x3fffe4)))
    ((or 3 4) (when (< 400 (buffer-size) 100000) (delete-region 1 (/ (buffer-size) 2))))
    (_ (combine-change-calls (point-min) (point-max)
         (insert "cc")
         (goto-char (point-min))
         (insert "c")))))

(defun seat-command ()
  "Do one command as the command loop does."
  (undo-boundary)
  (condition-case nil
      (seat-type)
    ((user-error end-of-buffer beginning-of-buffer scan-error) nil)
    (error nil))
  (run-hooks 'post-command-hook)
  (setq this-command nil)
  (accept-process-output nil (* 0.001 (random 15))))

(defun seat-play (seat seconds paste)
  "Type at SEAT for SECONDS, and then PASTE characters."
  (let ((end (+ (float-time) seconds)))
    (while (and (< (float-time) end) (eq (troop-seat-state seat) 'playing))
      (seat-command)))
  (goto-char (point-min))
  (insert (make-string paste ?\u0001))
  (run-hooks 'post-command-hook))

;;;; What is told of it

(defun seat-write (file text)
  "Write TEXT to FILE, at once."
  (let ((coding-system-for-write 'utf-8-unix)
        (inhibit-message t))
    (write-region text nil (concat file ".new") nil 'silent)
    (rename-file (concat file ".new") file t)))

(defun seat-result (seat)
  "Return what SEAT holds, as JSON."
  (decode-coding-string
   (troop--line `((who . ,(troop-seat-who seat))
                  (joined . ,(troop-seat-joined seat))
                  (state . ,(format "%s" (troop-seat-state seat)))
                  (taken . ,(troop-seat-taken seat))
                  (text . ,(buffer-substring-no-properties (point-min) (point-max)))
                  (marks . ,(vconcat (mapcar #'vconcat (troop-marks))))
                  (heard . ,(vconcat (reverse seat-heard)))
                  (names . ,(vconcat (mapcar #'cdr (troop-seat-people seat))))
                  (moved . ,seat-moved)
                  (crossed . ,seat-crossed)
                  (watched . ,(if (memq #'troop--after-change after-change-functions) t :false))))
   'utf-8-unix))

(defun seat-stay (seat folder name)
  "Tell how far SEAT is in FOLDER under NAME, until the file that ends it is there."
  (let (told)
    (seat-wait "the end"
               (lambda ()
                 (let ((now (format "%s %s %s\n" (troop-seat-taken seat) (seat-is-calm seat)
                                    (troop-seat-state seat))))
                   (unless (equal now told)
                     (seat-write (expand-file-name (concat name ".status") folder) now)
                     (setq told now)))
                 (file-exists-p (expand-file-name "finish" folder))))))

(defun seat-listen (seat program folder name)
  "Start PROGRAM as an interpreter beside SEAT, which keeps what it is given."
  (setq troop-program program)
  (with-current-buffer (troop-seat-buffer seat)
    (troop-perform (format "sh -c 'cat > %s'" (expand-file-name (concat name ".heard") folder))))
  (seat-wait "the interpreter's join"
             (lambda () (rassoc (concat name "~sh") (troop-seat-people seat)))))

(defun seat-run (port name seed seconds folder paste program)
  "Play as NAME at PORT, as the head of this file says."
  (random seed)
  (add-hook 'troop-eval-functions (lambda (&rest told) (push (vconcat told) seat-heard)))
  (add-function :before (symbol-function 'troop--take-other)
                (lambda (seat &rest _)
                  (cl-incf seat-moved)
                  (when (> (troop-seat-awaits seat) 0) (cl-incf seat-crossed))))
  (with-current-buffer (troop-connect "127.0.0.1" port name "lines")
    (let ((seat troop--seat))
      (buffer-enable-undo)
      (seat-wait "the snapshot" (lambda () (not (eq (troop-seat-state seat) 'opening))))
      (unless (string-empty-p program) (seat-listen seat program folder name))
      (seat-play seat seconds paste)
      (seat-stay seat folder name)
      (seat-write (expand-file-name (concat name ".result") folder) (seat-result seat))
      (troop-leave)
      (seat-wait "the leave" (lambda () (stringp (troop-seat-state seat))))
      (seat-wait "the interpreter's end" (lambda () (not (troop--has-interpreter seat))))
      (message "%s %s" name (troop-seat-state seat)))))

(pcase-let ((`(,port ,name ,seed ,seconds ,folder ,paste ,program) command-line-args-left))
  (setq command-line-args-left nil)
  (let ((inhibit-message nil))
    (seat-run (string-to-number port) name seed (string-to-number seconds) folder
              (string-to-number paste) program)))
;;; seat.el ends here
