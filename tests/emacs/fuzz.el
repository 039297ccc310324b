;;; fuzz.el --- Own and served changes at random, in one process  -*- lexical-binding: t; -*-

;; emacs -Q --batch -L clients/emacs -l tests/emacs/fuzz.el ROUNDS FIRST-SEED

(require 'cl-lib)
(require 'troop)

(defconst fuzz-steps 150 "Steps of a round.")
(defvar fuzz-counts nil "How often each kind of step was done.")

(defun fuzz-count (kind)
  "Count a step of KIND."
  (cl-incf (alist-get kind fuzz-counts 0)))

(defun fuzz-one-of (&rest choices)
  "Return one of CHOICES."
  (nth (random (length choices)) choices))

(defun fuzz-sit (text)
  "Return a seat of performer 2 on TEXT by performer 1, in the selected window."
  (let* ((buffer (generate-new-buffer "seat"))
         (seat (troop--new-seat :buffer buffer :name "two" :who 2 :joined 4)))
    (switch-to-buffer buffer)
    (buffer-enable-undo)
    (troop--set-up seat)
    (troop--take-snapshot seat `((at . 5) (text . ,text) (marks . ((1 ,(length text))))))
    seat))

(defun fuzz-take (seat deed who &rest more)
  "Let SEAT take an entry of DEED by WHO, with MORE keys and values."
  (troop--take-entry seat `((at . ,(troop-seat-taken seat)) (deed . ,deed) (who . ,who) ,@more))
  (troop--settle-undo seat))

(defun fuzz-confirm (seat)
  "Let SEAT take its outstanding edit, if there is one."
  (when (> (troop-seat-awaits seat) 0)
    (fuzz-take seat "edit" 2 (cons 'op (troop-seat-sent seat)))))

(defun fuzz-operation (length text)
  "Return an operation on a text of LENGTH; TEXT is called for what is put in."
  (let ((left length) parts)
    (while (> left 0)
      (let ((count (min left (1+ (random 12)))))
        (push (if (zerop (random 4)) (- (min count 4)) count) parts)
        (cl-decf left (abs (car parts))))
      (when (zerop (random 4)) (push (funcall text) parts)))
    (troop-op-normal (cons (if (zerop (random 3)) (funcall text) "") parts))))

;;;; Where places go

(defun fuzz-moved-end (op place)
  "Return where OP moves PLACE, where what is put in at PLACE stands in front of it."
  (let ((old 0) (new 0))
    (while (and op (or (< old place) (and (= old place) (stringp (car op)))))
      (let ((part (pop op)))
        (cond ((stringp part) (cl-incf new (length part)))
              ((< part 0) (cl-decf old part))
              (t (cl-incf new (min part (- place old)))
                 (cl-incf old part)))))
    new))

(defun fuzz-moved (op position)
  "Return where OP moves POSITION."
  (1+ (troop-op-moved-place op (1- position))))

(defun fuzz-places ()
  "Return point, mark, and point and start of the other window."
  (list (point) (mark t) (window-point (next-window)) (window-start (next-window))))

(defun fuzz-serve (seat)
  "Let SEAT take an edit or a reset by performer 1, and look where all places went."
  (when (zerop (random 3))
    (narrow-to-region (point) (min (point-max) (+ (point) (random 20)))))
  (let* ((places (fuzz-places))
         (bounds (list (point-min) (point-max)))
         (length (troop--log-length seat))
         (op (fuzz-operation length (lambda () (make-string (random 4) ?R))))
         served)
    (cl-letf* ((serve (symbol-function 'troop--serve))
               ((symbol-function 'troop--serve)
                (lambda (seat op who) (setq served op) (funcall serve seat op who))))
      (if (zerop (random 15))
          (fuzz-take seat "reset" (fuzz-one-of 1 2)
                     (cons 'op (troop-op-splice 0 "new\n\ntext\n" length length)))
        (fuzz-take seat "edit" 1 (cons 'op op))))
    (unless (equal (fuzz-places) (mapcar (lambda (place) (fuzz-moved served place)) places))
      (error "Places %S went to %S by %S" places (fuzz-places) served))
    (unless (equal (list (point-min) (point-max))
                   (list (fuzz-moved served (car bounds))
                         (1+ (fuzz-moved-end served (1- (cadr bounds))))))
      (error "Bounds %S went to %S by %S" bounds (list (point-min) (point-max)) served)))
  (widen))

;;;; Own and served changes

(defun fuzz-step (seat)
  "Do one step at SEAT."
  (let* ((here (1+ (random (1+ (buffer-size)))))
         (there (min (point-max) (+ here (random 40))))
         (kind (fuzz-one-of 'type 'type 'delete 'undo 'undo 'indent 'fill 'sort 'yank 'silent 'raw
                            'combine 'confirm 'serve 'serve 'serve)))
    (fuzz-count kind)
    (goto-char here)
    (pcase kind
      ('type (insert (fuzz-one-of "a" "b c" "\n" "xyz " "é😀")))
      ('delete (delete-region here (min there (+ here 6))))
      ('undo (setq last-command (fuzz-one-of 'other 'undo)) (undo))
      ('indent (indent-rigidly here there (- (random 5) 2)))
      ('fill (fill-region here there))
      ('sort (sort-lines nil here there))
      ('yank (kill-line) (yank))
      ('silent (let ((inhibit-modification-hooks t)) (insert "s")))
      ('raw (insert (string (+ #x3fff80 (random 128)))))
      ('combine (combine-change-calls (point-min) (point-max)
                  (insert "cc") (goto-char (point-min)) (insert "c")))
      ('confirm (fuzz-confirm seat))
      ('serve (set-mark there) (fuzz-serve seat)))))

(defun fuzz-try-step (seat)
  "Do one step at SEAT, which may be refused where there is nothing to undo or to kill."
  (undo-boundary)
  (condition-case nil
      (fuzz-step seat)
    ((user-error end-of-buffer beginning-of-buffer) nil))
  (run-hooks 'post-command-hook))

(defun fuzz-look (seat)
  "Fail where the buffer of SEAT isn't as it was told, with its marks."
  (unless (eq (troop-seat-state seat) 'playing)
    (error "The seat ended: %s" (troop-seat-state seat)))
  (let ((text (buffer-substring-no-properties 1 (point-max))) (marks (troop-marks)))
    (with-current-buffer (troop-seat-shadow seat)
      (unless (and (equal text (buffer-substring-no-properties 1 (point-max)))
                   (equal marks (troop-marks)))
        (error "The buffer isn't as it was told")))))

(defun fuzz-round (seed)
  "Play a round with SEED."
  (random (format "%s" seed))
  (let ((seat (fuzz-sit "hello world\n\nand more\n")))
    (dotimes (step fuzz-steps)
      (condition-case problem
          (progn (fuzz-try-step seat)
                 (fuzz-look seat))
        (error (error "Seed %d, step %d: %S" seed step problem))))
    (troop--stop seat "done")
    (kill-buffer)))

;;;; Undo, by characters that each stand once

(defvar fuzz-next-character nil "The next character that was never used.")
(defvar fuzz-order nil "Pairs of characters that were seen in this order.")

(defun fuzz-new-text ()
  "Return some characters that were never used."
  (let ((text (cl-loop for character from fuzz-next-character
                       repeat (random 4) collect character)))
    (cl-incf fuzz-next-character (length text))
    (apply #'string text)))

(defun fuzz-note-order ()
  "Note which character stands in front of which."
  (cl-loop for (one . behind) on (append (buffer-substring-no-properties 1 (point-max)) nil)
           do (dolist (other behind) (puthash (cons one other) t fuzz-order))))

(defun fuzz-undo-all ()
  "Undo all that was done in the current buffer."
  (undo-boundary)
  (setq last-command 'other)
  (condition-case nil
      (while t
        (undo)
        (run-hooks 'post-command-hook)
        (setq last-command 'undo))
    (user-error nil)))

(defun fuzz-undo-round (seed)
  "Edit in turn with somebody else, by SEED, and undo all own edits.
What is left is what the other made of the text, in an order that was seen before."
  (random (format "undo %s" seed))
  (setq fuzz-next-character #x4e00
        fuzz-order (make-hash-table :test #'equal)
        last-command nil)
  (let* ((start (concat (fuzz-new-text) (fuzz-new-text) (fuzz-new-text) "."))
         (seat (fuzz-sit start))
         (others (append start nil)))
    (dotimes (_ 12)
      (undo-boundary)
      (if (zerop (random 2))
          (fuzz-own-edit)
        (setq others (fuzz-others-edit seat others)))
      (while (> (troop-seat-awaits seat) 0) (fuzz-confirm seat))
      (fuzz-note-order))
    (fuzz-undo-all)
    (let ((text (append (buffer-substring-no-properties 1 (point-max)) nil)))
      (unless (equal (sort (copy-sequence text) #'<) (sort (copy-sequence others) #'<))
        (error "Undo seed %d: %S is left, and not %S" seed (concat text) (concat others)))
      (cl-loop for (one . behind) on text
               do (dolist (other behind)
                    (when (gethash (cons other one) fuzz-order)
                      (error "Undo seed %d: %c stood in front of %c" seed other one)))))
    (fuzz-look seat)
    (troop--stop seat "done")
    (kill-buffer)))

(defun fuzz-own-edit ()
  "Put in, delete, or undo once."
  (goto-char (1+ (random (1+ (buffer-size)))))
  (pcase (random 4)
    (0 (setq last-command 'delete)
       (delete-region (point) (min (point-max) (+ (point) (random 5)))))
    (1 (fuzz-undo-once))
    (_ (setq last-command 'type)
       (insert (fuzz-new-text))))
  (run-hooks 'post-command-hook))

(defun fuzz-undo-once ()
  "Undo on from the last undo, or from where the text is now.
It is never the first change of all that is undone: Emacs notes of no cell of the list
that this led back to there."
  (when (and (eq last-command 'undo) (zerop (random 2)))
    (setq last-command 'other))
  (when (> (cl-count nil (if (eq last-command 'undo) pending-undo-list buffer-undo-list)) 2)
    (undo)
    (setq last-command 'undo)))

(defun fuzz-others-edit (seat others)
  "Let SEAT take an edit of performer 1; return what it leaves of the characters OTHERS.
Only characters of OTHERS are deleted, so that it is plain what is left."
  (let ((text (append (buffer-substring-no-properties 1 (point-max)) nil)) parts left)
    (dolist (character text)
      (when (zerop (random 5))
        (let ((new (fuzz-new-text)))
          (push new parts)
          (setq left (append new left))))
      (push (if (and (memq character others) (zerop (random 5))) -1 1) parts)
      (when (= (car parts) -1) (setq others (remq character others))))
    (fuzz-take seat "edit" 1 (cons 'op (troop-op-normal (nreverse parts))))
    (append left others)))

;;;; All rounds

(pcase-let ((`(,rounds ,seed) (mapcar #'string-to-number command-line-args-left)))
  (setq command-line-args-left nil)
  (split-window)
  (let ((inhibit-message t))
    (dotimes (index rounds)
      (fuzz-round (+ seed index))
      (fuzz-undo-round (+ seed index))))
  (dolist (kind '(type delete undo indent fill sort yank silent raw combine confirm serve))
    (unless (alist-get kind fuzz-counts) (error "No step of kind %s" kind)))
  (message "fuzz: %d rounds of %d steps from seed %d, %d of them served, and as many rounds of undo"
           rounds fuzz-steps seed (alist-get 'serve fuzz-counts)))
;;; fuzz.el ends here
