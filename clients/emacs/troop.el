;;; troop.el --- A seat in a Troop, for ensemble live coding  -*- lexical-binding: t; -*-

;; Version: 0.1
;; Package-Requires: ((emacs "28.1"))
;; Keywords: multimedia, comm, processes

;;; Commentary:

;; `troop serve' keeps one text for several performers.  M-x troop-connect takes
;; a seat there: it opens a buffer with the shared text.  What is typed in it is
;; sent, what others type comes in, each performer's characters have a face of
;; their own, and C-c C-c has the block round point evaluated by everybody's
;; interpreter.  M-x troop-perform starts an interpreter, and `troop-eval-functions'
;; feed one that Emacs already runs.  M-x troop-leave ends it.
;;
;; The README.md beside this file shows an evening; docs/PROTOCOL.md has the lines
;; that are said here, and docs/CLIENTS.md what a client has to do.  Nothing of
;; this file is proved; tests/emacs.py tests it.

;;; Code:

(require 'cl-lib)
(require 'json)
(require 'shell)
(require 'subr-x)

(defgroup troop nil
  "Ensemble live coding over one shared text."
  :group 'applications)

(defcustom troop-program "troop"
  "The program that `troop-perform' runs: crates/troop/out/troop of a checkout."
  :type 'file)

(defcustom troop-boot-file nil
  "A file that `troop-perform' feeds to each new interpreter first, or nil."
  :type '(choice (const :tag "None" nil) file))

(defcustom troop-patience 30
  "Seconds after which an unanswered link is taken as lost, and dialled again."
  :type 'number)

(defcustom troop-undo-room 1000
  "How many entries of the undo list are kept when others edit."
  :type 'natnum)

(defcustom troop-colours
  '("#d7303a" "#2f6fd0" "#3d8b37" "#9b51b8" "#b8860b" "#1b8f99" "#c8641b" "#7a7a7a")
  "Colours of the performers, by their numbers.  With nil there are styles alone."
  :type '(repeat color))

(defcustom troop-styles
  '(nil (:underline t) (:weight bold) (:slant italic) (:inverse-video t)
        (:underline t :weight bold) (:underline t :slant italic) (:weight bold :slant italic))
  "Styles of the performers, by their numbers: they are told apart without colour.
Each is a list of attributes of a face."
  :type '(repeat (plist :key-type symbol :value-type sexp)))

(defvar troop-eval-functions nil
  "Functions that are called for each evaluation, in the order of the log.
Their arguments are the number of the performer who evaluated, the position of
the evaluation in the log, and the text of the block.  They aren't called for
what was evaluated before the own join.")

;;;; Operations

;; An operation is a list of parts, as on the wire: a number above 0 keeps so many
;; characters, one below 0 deletes so many, and a string is put in.  It is always
;; normal: no part is empty, no neighbours are of one kind, and what is put in
;; stands in front of what is deleted there.  Places count from 0.

(defun troop-op--and (part op)
  "Put PART behind the parts of OP, which is normal and stands reversed."
  (let ((last (car op)))
    (cond ((or (eql part 0) (equal part "")) op)
          ((null last) (list part))
          ((and (stringp part) (stringp last)) (cons (concat last part) (cdr op)))
          ((and (stringp part) (< last 0)) (cons last (troop-op--and part (cdr op))))
          ((or (stringp part) (stringp last)) (cons part op))
          ((eq (< part 0) (< last 0)) (cons (+ last part) (cdr op)))
          (t (cons part op)))))

(defmacro troop-op--add (part place)
  "Put PART behind the parts of the reversed operation at PLACE."
  `(setf ,place (troop-op--and ,part ,place)))

(defun troop-op-normal (parts)
  "Return the operation of PARTS, which may be spelled in any way."
  (let (op)
    (dolist (part parts (nreverse op))
      (troop-op--add part op))))

(defun troop-op-base (op)
  "Return the length of the texts that OP is for."
  (let ((base 0))
    (dolist (part op base)
      (unless (stringp part) (cl-incf base (abs part))))))

(defun troop-op-splice (place text deleted base)
  "Return the operation that puts TEXT at PLACE for DELETED characters of BASE."
  (troop-op-normal (list place text (- deleted) (- base place deleted))))

(defun troop-op-moved-place (op place)
  "Return where OP moves PLACE.  What is put in at PLACE itself stands behind it."
  (let ((old 0) (new 0))
    (while (and op (< old place))
      (let ((part (pop op)))
        (cond ((stringp part) (cl-incf new (length part)))
              ((< part 0) (cl-decf old part))
              (t (cl-incf new (min part (- place old)))
                 (cl-incf old part)))))
    new))

(defun troop-op--behind (op count)
  "Return OP without the first COUNT characters of its first part."
  (let ((part (car op)))
    (cond ((and (stringp part) (< count (length part)))
           (cons (substring part count) (cdr op)))
          ((stringp part) (cdr op))
          ((= count (abs part)) (cdr op))
          ((< part 0) (cons (+ part count) (cdr op)))
          (t (cons (- part count) (cdr op))))))

(defun troop-op--common (one other)
  "Return how many characters the parts ONE and OTHER have in common.
Either may be a string, of which each character counts."
  (unless (and one other) (error "Two operations on texts of different lengths"))
  (min (if (stringp one) (length one) (abs one))
       (if (stringp other) (length other) (abs other))))

(defun troop-op-transform (a b)
  "Return (A-MOVED . B-MOVED): A moved through B, and B moved through A.
Where both put text in at one gap, that of A stands first."
  (let (a-moved b-moved)
    (while (or a b)
      (let ((one (car a)) (other (car b)))
        (cond ((stringp one)
               (troop-op--add one a-moved)
               (troop-op--add (length one) b-moved)
               (pop a))
              ((stringp other)
               (troop-op--add (length other) a-moved)
               (troop-op--add other b-moved)
               (pop b))
              (t (let ((count (troop-op--common one other)))
                   (when (> other 0) (troop-op--add (if (> one 0) count (- count)) a-moved))
                   (when (> one 0) (troop-op--add (if (> other 0) count (- count)) b-moved))
                   (setq a (troop-op--behind a count)
                         b (troop-op--behind b count)))))))
    (cons (nreverse a-moved) (nreverse b-moved))))

(defun troop-op-compose (a b)
  "Return the one operation with the effect of A, and then of B."
  (let (composed)
    (while (or a b)
      (let ((one (car a)) (other (car b)))
        (cond ((and (integerp one) (< one 0))
               (troop-op--add (pop a) composed))
              ((stringp other)
               (troop-op--add (pop b) composed))
              (t (let ((count (troop-op--common one other)))
                   (cond ((and (> other 0) (stringp one))
                          (troop-op--add (substring one 0 count) composed))
                         ((> other 0) (troop-op--add count composed))
                         ((integerp one) (troop-op--add (- count) composed)))
                   (setq a (troop-op--behind a count)
                         b (troop-op--behind b count)))))))
    (nreverse composed)))

(defun troop-op-compose-all (ops)
  "Return the one operation with the effect of OPS, of which there is at least one.
They are composed in pairs, so that many small ones cost little."
  (while (cdr ops)
    (let (pairs)
      (while ops
        (let ((first (pop ops)))
          (push (if ops (troop-op-compose first (pop ops)) first) pairs)))
      (setq ops (nreverse pairs))))
  (car ops))

(defconst troop--longest-line 1048576
  "How many bytes a line to the server may have.")

(defconst troop--most-bytes 1000000
  "How many bytes of a line its operation may have.")

(defconst troop-op--part-cost 24
  "At most how many bytes a line has for a part, but for a string's characters.")

(defconst troop-op--character-cost 12
  "At most how many bytes a line has for a character: two escapes of six.")

(defun troop-op-cut (op room)
  "Return (FIRST . REST): FIRST takes ROOM bytes of a line, REST does what is left.
REST is nil where nothing is left."
  (let (first rest over)
    (dolist (part op)
      (let* ((size (if (stringp part) (length part) 0))
             (cost (+ troop-op--part-cost (* troop-op--character-cost size)))
             (fits (and (not over) (<= cost room))))
        (cond (fits
               (setq room (- room cost))
               (push part first)
               (push (if (stringp part) size (max part 0)) rest))
              ((integerp part)
               (push (abs part) first)
               (push part rest))
              (t
               (let ((count (if over 0 (troop-op--characters-in room))))
                 (push (substring part 0 count) first)
                 (push count rest)
                 (push (substring part count) rest))))
        (unless fits (setq over t))))
    (if over
        (cons (troop-op-normal (nreverse first)) (troop-op-normal (nreverse rest)))
      (list op))))

(defun troop-op--characters-in (room)
  "Return how many characters of a string surely fit in ROOM bytes."
  (max 0 (/ (- room troop-op--part-cost) troop-op--character-cost)))

;;;; Seats

(cl-defstruct (troop-seat (:constructor troop--new-seat) (:copier nil))
  "A performer's seat: a shared buffer, its links, and the three states of its text."
  (buffer nil :documentation "The shared buffer.")
  (shadow nil :documentation "A hidden buffer: the held text and marks as far as they were told.")
  (tick nil :documentation "The modification tick of the buffer up to which changes were told.")
  (unfit nil :documentation "Whether a change waits that has characters no line can hold.")
  (host nil) (port nil) (name nil) (lang nil)
  (state 'opening :documentation "`opening', `playing', `leaving' (asks nothing more), `parting'
(has asked for the leave), or a string: why it ended.")
  (who nil :documentation "The own number, once the join was answered.")
  (joined nil :documentation "The position of the own join.")
  (taken nil :documentation "How many entries were taken, once there was a snapshot.")
  (awaits 0 :documentation "1 where `sent' is awaited, 2 where more is held back behind it.")
  (sent nil :documentation "The outstanding operation, moved through what was taken since.")
  (later nil :documentation "The operations held back, the newest first.")
  (served nil :documentation "What others did that the undo list isn't moved past, newest first.")
  (queue nil :documentation "Requests to go out.")
  (asked nil :documentation "The line of the request that is out.")
  (number 0 :documentation "How many requests have gone out.")
  (links nil :documentation "The current process of each side: `up', `down' and `names'.")
  (lost 0 :documentation "How many links were lost since the last line came.")
  (people nil :documentation "Those who are here, as (NUMBER . NAME).")
  (gone nil :documentation "The numbers of those who left since the own join.")
  (earlier nil :documentation "Those who joined before, as far as their names were read.")
  (answer-due nil :documentation "When the reply that is owed should have come, or nil.")
  (entry-due nil :documentation "(POSITION . TIME) of the last entry that a reply told of, or nil.")
  (watchdog nil :documentation "The timer that looks whether something is overdue.")
  (interpreter nil :documentation "The process of `troop-perform'."))

(defvar-local troop--seat nil "The seat of this buffer.")
(put 'troop--seat 'permanent-local t)

(defvar troop--serving nil "Whether a change of the buffer is told already.")

(defun troop--here ()
  "Return the seat of the current buffer, which must be at play."
  (cond ((null troop--seat) (user-error "This buffer has no seat in a Troop"))
        ((eq (troop-seat-state troop--seat) 'playing) troop--seat)
        (t (user-error "This seat isn't at play: %s" (troop-seat-state troop--seat)))))

(defun troop--has-ended (seat)
  "Return whether SEAT has ended, or its buffer has."
  (or (stringp (troop-seat-state seat))
      (not (buffer-live-p (troop-seat-buffer seat)))))

(defmacro troop--or-stop (seat &rest body)
  "Do BODY; an error ends SEAT, which then tells nothing wrong.
An error in a hook would also take everybody's functions off that hook."
  (declare (indent 1))
  `(condition-case problem
       (progn ,@body)
     (error (troop--stop ,seat (error-message-string problem)))))

(defun troop--stop (seat why)
  "End the links of SEAT, for the reason WHY, and leave the text as it is."
  (unless (stringp (troop-seat-state seat))
    (setf (troop-seat-state seat) why)
    (when (troop-seat-watchdog seat)
      (cancel-timer (troop-seat-watchdog seat)))
    (dolist (link (troop-seat-links seat))
      (delete-process (cdr link)))
    (troop--end-interpreter seat)
    (when (buffer-live-p (troop-seat-buffer seat))
      (with-current-buffer (troop-seat-buffer seat)
        (troop--unwatch)
        (setq buffer-read-only nil)))
    (when (buffer-live-p (troop-seat-shadow seat))
      (kill-buffer (troop-seat-shadow seat)))
    (message "Troop: %s" why)
    (force-mode-line-update t)))

;;;; Texts and marks

;; The mark of a character is its text property `troop-who'.  The marks of the
;; shadow are the true ones.  They are painted onto the buffer, since yanks and
;; undos bring properties of their own.

(defun troop--face (who)
  "Return the face of performer WHO, which is made when it is first wanted."
  (let ((face (intern (format "troop-performer-%d" who))))
    (unless (facep face)
      (make-face face)
      (set-face-documentation face (format "What performer %d of a Troop wrote." who))
      (apply #'set-face-attribute face nil (troop--attributes who)))
    face))

(defun troop--attributes (who)
  "Return the attributes of the face of performer WHO.
Those who share a colour differ in their style."
  (let* ((index (1- who))
         (colours (length troop-colours))
         (styles (length troop-styles))
         (turn (if (> colours 0) (/ index colours) 0)))
    (append (when (> colours 0) (list :foreground (nth (mod index colours) troop-colours)))
            (when (> styles 0) (nth (mod (+ index turn) styles) troop-styles)))))

(defun troop--mark (start end who)
  "Mark the text from START to END as put in by WHO."
  (put-text-property start end 'troop-who who))

(defun troop--apply (op who)
  "Apply OP by performer WHO to the current buffer."
  (goto-char (point-min))
  (dolist (part op)
    (cond ((stringp part)
           (let ((start (point)))
             (insert part)
             (with-silent-modifications (troop--mark start (point) who))))
          ((> part 0) (goto-char (+ (point) part)))
          (t (delete-region (point) (- (point) part))))))

(defun troop--paint (seat start end)
  "Give the text of SEAT from START to END the marks of the shadow."
  (with-silent-modifications
    (while (< start end)
      (let ((who (get-text-property start 'troop-who (troop-seat-shadow seat)))
            (next (next-single-property-change start 'troop-who (troop-seat-shadow seat) end)))
        (troop--mark start next who)
        (setq start next)))))

(defun troop-marks ()
  "Return the marks of the current buffer as a list of (WHO COUNT)."
  (save-restriction
    (widen)
    (let ((at (point-min)) marks)
      (while (< at (point-max))
        (let ((next (next-single-property-change at 'troop-who nil (point-max))))
          (push (list (get-text-property at 'troop-who) (- next at)) marks)
          (setq at next)))
      (nreverse marks))))

;; The marks are shown by font lock, in front of what the major mode shows.

(defconst troop--keywords '((troop--next-run 0 (troop--face-at-match) prepend))
  "What font lock shows of the marks.")

(defun troop--next-run (limit)
  "Match the next characters of one performer up to LIMIT."
  (let* ((start (if (get-text-property (point) 'troop-who) (point)
                  (next-single-property-change (point) 'troop-who nil limit)))
         (end (next-single-property-change start 'troop-who nil limit)))
    (when (< start end)
      (set-match-data (list start end))
      (goto-char end)
      t)))

(defun troop--face-at-match ()
  "Return the face of the performer whose characters were matched."
  (troop--face (get-text-property (match-beginning 0) 'troop-who)))

(defun troop--show-marks ()
  "Show the marks of the current buffer, if it has a seat, in any major mode."
  (when troop--seat
    (unless (or font-lock-defaults font-lock-keywords)
      (setq-local font-lock-defaults '(nil t)))
    (font-lock-add-keywords nil troop--keywords 'append)
    (font-lock-mode 1)))

;;;; Own changes

;; A change is the difference of the buffer and the shadow within the range that a
;; hook names.  A change whose hook didn't run is found by the next hook, command
;; or entry, by the modification tick.

(defun troop--is-home ()
  "Return whether the current buffer is its seat's own, and no clone of it."
  (and troop--seat (eq (current-buffer) (troop-seat-buffer troop--seat))))

(defun troop--before-change (_start _end)
  "Tell earlier changes whose hooks didn't run."
  (when (and (troop--is-home) (not troop--serving) (not (troop-seat-unfit troop--seat)))
    (troop--catch-up troop--seat)))

(defun troop--after-change (start end removed)
  "Tell that the text from START to END came for REMOVED characters."
  (when (and (troop--is-home) (not troop--serving))
    (troop--or-stop troop--seat
      (troop--tell-change troop--seat start end removed))))

(defun troop--after-command ()
  "Tell changes whose hooks didn't run, also those of a clone of the buffer."
  (when troop--seat (troop--catch-up troop--seat)))

(defun troop--killed ()
  "Leave as the buffer is killed."
  (when (troop--is-home)
    (troop--part-in-haste troop--seat)
    (troop--stop troop--seat "the buffer was killed")))

(defconst troop--hooks
  '((before-change-functions . troop--before-change)
    (after-change-functions . troop--after-change)
    (post-command-hook . troop--after-command)
    (kill-buffer-hook . troop--killed))
  "The hooks of a shared buffer.  They stay when the major mode changes.")

(pcase-dolist (`(,_ . ,function) troop--hooks)
  (put function 'permanent-local-hook t))

(defun troop--watch ()
  "Begin to tell what is done in the current buffer."
  (pcase-dolist (`(,hook . ,function) troop--hooks)
    (add-hook hook function nil t)))

(defun troop--unwatch ()
  "Tell no more of the current buffer."
  (pcase-dolist (`(,hook . ,function) troop--hooks)
    (remove-hook hook function t)))

(defun troop--catch-up (seat)
  "Tell all that changed in the buffer of SEAT and wasn't told yet."
  (when (memq (troop-seat-state seat) '(playing leaving parting))
    (with-current-buffer (troop-seat-buffer seat)
      (unless (eql (troop-seat-tick seat) (buffer-chars-modified-tick))
        (troop--or-stop seat
          (when (troop-seat-unfit seat) (troop--spell-out seat))
          (troop--tell-change seat 1 (1+ (buffer-size)) (buffer-size (troop-seat-shadow seat))))))))

(defun troop--tell-change (seat start end removed)
  "Tell that the text of SEAT from START to END came for REMOVED characters."
  (let ((inhibit-quit t)
        (case-fold-search nil)
        (told (buffer-size (troop-seat-shadow seat))))
    (save-match-data
      (save-restriction
        (widen)
        (unless (= (- (buffer-size) (- end start)) (- told removed))
          (setq start 1 end (1+ (buffer-size)) removed told))
        (pcase-let ((`(,from ,to ,old-to) (troop--difference seat start end (+ start removed))))
          (if (and from (troop--is-unfit from to))
              (setf (troop-seat-unfit seat) t)
            (when from (troop--tell seat from to old-to))
            (troop--paint seat start end)
            (setf (troop-seat-tick seat) (buffer-chars-modified-tick))))))))

(defun troop--difference (seat start end old-end)
  "Return (FROM TO OLD-TO), within which the buffer and the shadow of SEAT differ.
The buffer's text from START to END is held against the shadow's from START to
OLD-END.  The value is nil where they are equal."
  (let* ((shadow (troop-seat-shadow seat))
         (order (compare-buffer-substrings nil start end shadow start old-end)))
    (unless (zerop order)
      (let* ((from (+ start (abs order) -1))
             (same (troop--same-at-end from end shadow old-end)))
        (list from (- end same) (- old-end same))))))

(defun troop--same-at-end (from end shadow old-end)
  "Return how many characters in front of END and OLD-END of SHADOW are equal.
Those in front of FROM aren't looked at."
  (let ((low 0) (high (- (min end old-end) from)))
    (while (< low high)
      (let ((half (/ (+ low high 1) 2)))
        (if (zerop (compare-buffer-substrings nil (- end half) end
                                              shadow (- old-end half) old-end))
            (setq low half)
          (setq high (1- half)))))
    low))

(defun troop--tell (seat from to old-to)
  "Tell that the text of SEAT from FROM to TO stands for that up to OLD-TO."
  (let* ((shadow (troop-seat-shadow seat))
         (text (buffer-substring-no-properties from to))
         (op (troop-op-splice (1- from) text (- old-to from) (buffer-size shadow))))
    (with-current-buffer shadow
      (troop--apply op (troop-seat-who seat)))
    (troop--type seat op)))

;; Raw bytes and halves of surrogate pairs are characters in Emacs and in no JSON
;; string.  They are spelled out once the command is done, since a hook mustn't
;; change the text.

(defconst troop--unfit "[^\u0000-\ud7ff\ue000-\U0010ffff]"
  "A character that is no Unicode scalar value.")

(defun troop--is-unfit (start end)
  "Return whether the text from START to END has a character that no line can hold."
  (save-excursion
    (goto-char start)
    (re-search-forward troop--unfit end t)))

(defun troop--spelling (character)
  "Return how CHARACTER is spelled out: as Emacs shows it."
  (if (eq (char-charset character) 'eight-bit)
      (format "\\%o" (multibyte-char-to-unibyte character))
    (format "\\x%x" character)))

(defun troop--spell-out (seat)
  "Spell out the characters of SEAT's buffer that no line can hold."
  (let ((inhibit-quit t) (inhibit-read-only t) (troop--serving t) (case-fold-search nil) (count 0))
    (save-match-data
      (save-excursion
        (save-restriction
          (widen)
          (goto-char (point-min))
          (while (re-search-forward troop--unfit nil t)
            (replace-match (troop--spelling (char-before)) t t)
            (cl-incf count)))))
    (setf (troop-seat-unfit seat) nil)
    (message "Troop: characters that no line can hold were spelled out, %d of them" count)))

;;;; The three states

(defun troop--type (seat op)
  "Send OP, which was done in the buffer of SEAT, or hold it back."
  (if (= (troop-seat-awaits seat) 0)
      (troop--send-edit seat op)
    (setf (troop-seat-awaits seat) 2)
    (push op (troop-seat-later seat))))

(defun troop--held-back (seat)
  "Return what SEAT holds back, as one operation."
  (let ((op (troop-op-compose-all (reverse (troop-seat-later seat)))))
    (setf (troop-seat-later seat) (list op))
    op))

(defun troop--send-edit (seat op)
  "Make OP the outstanding operation of SEAT, or its first part where it is long."
  (pcase-let ((`(,first . ,rest) (troop-op-cut op troop--most-bytes)))
    (when rest
      (setf (troop-seat-later seat) (append (troop-seat-later seat) (list rest))))
    (setf (troop-seat-sent seat) first
          (troop-seat-awaits seat) (if (troop-seat-later seat) 2 1))
    (troop--ask seat `((call . "edit") (op . ,(vconcat first)) (seen . ,(troop-seat-taken seat))))))

(defun troop--confirm (seat op)
  "Take the own edit OP, which the log has placed."
  (unless (and (> (troop-seat-awaits seat) 0) (equal op (troop-seat-sent seat)))
    (error "An edit of the own number that this seat hasn't sent"))
  (if (= (troop-seat-awaits seat) 1)
      (setf (troop-seat-awaits seat) 0
            (troop-seat-sent seat) nil)
    (let ((op (troop--held-back seat)))
      (setf (troop-seat-later seat) nil)
      (troop--send-edit seat op))))

(defun troop--take-other (seat op who)
  "Take OP by performer WHO past what SEAT has out and holds back, and apply it."
  (unless (= (troop-op-base op) (troop--log-length seat))
    (error "An edit for another text than the log's"))
  (when (> (troop-seat-awaits seat) 0)
    (pcase-let ((`(,own . ,other) (troop-op-transform (troop-seat-sent seat) op)))
      (setf (troop-seat-sent seat) own)
      (setq op other)))
  (when (= (troop-seat-awaits seat) 2)
    (pcase-let ((`(,own . ,other) (troop-op-transform (troop--held-back seat) op)))
      (setf (troop-seat-later seat) (list own))
      (setq op other)))
  (troop--serve seat op who))

(defun troop--log-length (seat)
  "Return the length of the log's text as far as SEAT has taken it."
  (if (> (troop-seat-awaits seat) 0)
      (troop-op-base (troop-seat-sent seat))
    (buffer-size (troop-seat-shadow seat))))

(defun troop--serve (seat op who)
  "Apply OP by WHO to the text of SEAT.
Point, mark, windows and narrowing stay with the text, and the undo list has own
changes alone."
  (with-current-buffer (troop-seat-shadow seat)
    (troop--apply op who))
  (let ((troop--serving t) (inhibit-read-only t) (buffer-undo-list t) (deactivate-mark nil))
    (save-match-data
      (save-excursion
        (save-restriction
          (widen)
          (troop--apply op who)))))
  (setf (troop-seat-tick seat) (buffer-chars-modified-tick))
  (push op (troop-seat-served seat)))

;;;; Undo

;; Emacs's undo list is a chain of steps back, the newest first, each at a place.
;; An operation by somebody else is moved through the chain, and moves each step.
;;
;; What was undone is a step of the chain too.  `undo-equiv-table' says to which
;; later part of the list it led back: there and here one text was meant.  Where the
;; operation comes to that part as another one, somebody has edited within what was
;; undone.  Then the steps from here to there go, and what was undone isn't redone.
;;
;; On its way the operation is kept as a patch, (LEAD TAIL SPAN GAIN . CORE): it
;; keeps LEAD characters, does the parts CORE to the next SPAN, which makes them
;; GAIN more, and keeps the last TAIL.  Most steps lie in front of the patch or
;; behind it, and cost some sums.

(defun troop--patch (op)
  "Return OP as a patch."
  (let* ((lead (if (and (integerp (car op)) (> (car op) 0)) (pop op) 0))
         (last (car (last op)))
         (tail (if (and (integerp last) (> last 0)) last 0))
         (core (if (> tail 0) (butlast op) op))
         (gain 0))
    (dolist (part core)
      (cl-incf gain (cond ((stringp part) (length part)) ((< part 0) part) (t 0))))
    `(,lead ,tail ,(troop-op-base core) ,gain . ,core)))

(defun troop--patch-op (patch)
  "Return the operation that PATCH is."
  (pcase-let ((`(,lead ,tail ,_ ,_ . ,core) patch))
    (troop-op-normal `(,lead ,@core ,tail))))

(defun troop--settle-undo (seat)
  "Move the undo list of SEAT past the operations that were served since."
  (when (troop-seat-served seat)
    (let ((op (troop-op-compose-all (reverse (troop-seat-served seat)))))
      (setf (troop-seat-served seat) nil)
      (with-current-buffer (troop-seat-buffer seat)
        (let ((goes-on (and (consp pending-undo-list)
                            (cl-tailp pending-undo-list buffer-undo-list))))
          (troop--move-undo op)
          (when (and goes-on (not (cl-tailp pending-undo-list buffer-undo-list)))
            (setq pending-undo-list t)))))))

(defun troop--move-undo (op)
  "Move the steps of the current buffer's undo list past OP."
  (when-let ((last (and (consp buffer-undo-list) (nthcdr troop-undo-room buffer-undo-list))))
    (setcdr last nil))
  (let ((patch (troop--patch op)) (cell buffer-undo-list) previous returns)
    (while (consp cell)
      (when (assq cell returns)
        (pcase-setq `(,patch ,previous . ,returns)
                    (troop--at-return cell patch previous returns)))
      (let ((goal (gethash cell undo-equiv-table)))
        (when (consp goal) (push (list goal patch previous) returns)))
      (pcase-setq `(,patch . ,previous) (troop--move-cell cell patch))
      (setq cell (cdr previous)))))

(defun troop--at-return (cell patch previous returns)
  "Look whether PATCH comes to CELL of the undo list as where that was undone.
RETURNS has (CELL PATCH PREVIOUS) for each cell that something undone led back
to, with what PATCH was there, and the cell in front.  Where it comes as another
one, the steps between go.
Return (PATCH PREVIOUS . RETURNS) behind that."
  (let (return)
    (while (setq return (assq cell returns))
      (if (equal patch (nth 1 return))
          (setq returns (delq return returns))
        (setq patch (nth 1 return)
              previous (nth 2 return)
              returns (cdr (memq return returns)))
        (if previous (setcdr previous cell) (setq buffer-undo-list cell)))))
  `(,patch ,previous . ,returns))

(defun troop--move-cell (cell patch)
  "Move the step at CELL of the undo list past PATCH.
Return (PATCH-MOVED . LAST), where LAST is the last cell that the step takes.
Where it isn't known what the step does, the list ends with it."
  (troop--spread-step cell)
  (let ((moved (troop--moved-step (car cell) patch)))
    (cond ((null moved)
           (setcar cell (point-max))
           (setcdr cell nil)
           (cons patch cell))
          ((cdar moved)
           (setcar cell (caar moved))
           (setcdr cell (append (cdar moved) (cdr cell)))
           (cons (cdr moved) (nthcdr (length (cdar moved)) cell)))
          (t
           (setcar cell (caar moved))
           (cons (cdr moved) cell)))))

(defun troop--spread-step (cell)
  "Put the steps of a combined change at CELL of the undo list in its place."
  (when (eq (car-safe (car cell)) 'apply)
    (pcase (car cell)
      (`(apply ,_ ,_ ,_ undo--wrap-and-run-primitive-undo ,_ ,_ ,(and steps (pred consp)))
       (setcar cell (car steps))
       (setcdr cell (append (cdr steps) (cdr cell)))))))

(defun troop--moved-step (step patch)
  "Return (STEPS . PATCH-MOVED): STEP behind PATCH, and PATCH behind STEP.
It is nil where it isn't known what STEP does."
  (let* ((what (car-safe step))
         (where (cdr-safe step))
         (end (+ 1 (nth 0 patch) (nth 1 patch) (nth 2 patch))))
    (cond ((or (null step) (eq what t) (markerp what))
           (cons (list step) patch))
          ((integerp step)
           (cons (list (troop--moved-position patch (min step end))) patch))
          ((and (stringp what) (integerp where) (<= 1 (abs where) end))
           (troop--moved-return what where patch))
          ((and (integerp what) (integerp where) (<= 1 what where end))
           (troop--moved-removal what where patch))
          (t (pcase step
               ((and `(nil ,property ,value ,(and from (pred integerp)) . ,(and to (pred integerp)))
                     (guard (<= 1 from to end)))
                (cons (list `(nil ,property ,value ,(troop--moved-position patch from)
                                  . ,(troop--moved-position patch to)))
                      patch)))))))

(defun troop--moved-position (patch position)
  "Return where PATCH moves POSITION of a buffer."
  (let ((lead (nth 0 patch)))
    (cond ((<= position (1+ lead)) position)
          ((> position (+ 1 lead (nth 2 patch))) (+ position (nth 3 patch)))
          (t (1+ (troop-op-moved-place (troop--patch-op patch) (1- position)))))))

(defun troop--moved-return (text at patch)
  "Do the work of `troop--moved-step' for a step that brings TEXT back at AT."
  (pcase-let ((`(,lead ,tail ,span ,gain . ,core) patch)
              (place (1- (abs at)))
              (size (length text)))
    (cond ((< place lead)
           `(((,text . ,at)) ,(+ lead size) ,tail ,span ,gain . ,core))
          ((> place (+ lead span))
           `(((,text . ,(if (< at 0) (- at gain) (+ at gain))))
             ,lead ,(+ tail size) ,span ,gain . ,core))
          (t (troop--met-return text at (troop--patch-op patch))))))

(defun troop--met-return (text at op)
  "Do the work of `troop--moved-return' where the change of OP lies at AT."
  (pcase-let* ((return (troop-op-splice (1- (abs at)) text 0 (troop-op-base op)))
               (`(,own . ,other) (troop-op-transform return op))
               (position (if (stringp (car own)) 1 (1+ (car own)))))
    (cons (list (cons text (if (< at 0) (- position) position)))
          (troop--patch other))))

(defun troop--moved-removal (from to patch)
  "Do the work of `troop--moved-step' for a step that removes FROM to TO."
  (pcase-let ((`(,lead ,tail ,span ,gain . ,core) patch)
              (size (- to from)))
    (cond ((<= (1- to) lead)
           `(((,from . ,to)) ,(- lead size) ,tail ,span ,gain . ,core))
          ((>= (1- from) (+ lead span))
           `(((,(+ from gain) . ,(+ to gain))) ,lead ,(- tail size) ,span ,gain . ,core))
          (t (troop--met-removal from to (troop--patch-op patch))))))

(defun troop--met-removal (from to op)
  "Do the work of `troop--moved-removal' where the change of OP meets FROM to TO.
What others put in between stays, and what others removed is left out."
  (pcase-let* ((removal (troop-op-splice (1- from) "" (- to from) (troop-op-base op)))
               (`(,own . ,other) (troop-op-transform removal op)))
    (cons (or (troop--removals own)
              ;; A place, since `undo' goes round for ever in a list of nils.
              (list (1+ (troop-op-moved-place op (1- from)))))
          (troop--patch other))))

(defun troop--removals (op)
  "Return the removals of OP as steps of an undo list, the last in the text first."
  (let ((at 1) steps)
    (dolist (part op steps)
      (when (< part 0) (push (cons at (- at part)) steps))
      (cl-incf at (abs part)))))

;;;; Lines

(defun troop--line (value)
  "Return VALUE as a line of bytes."
  (concat (encode-coding-string (json-serialize value) 'utf-8-unix) "\n"))

(defun troop--read-line (line)
  "Return the value of a LINE of bytes."
  (let ((text (decode-coding-string line 'utf-8-unix)))
    (condition-case nil
        (json-parse-string text :object-type 'alist :array-type 'list :false-object nil)
      ;; The fast reader of older Emacs refuses U+0000 in a string.
      (json-parse-error
       (let ((json-object-type 'alist) (json-array-type 'list) (json-false nil))
         (json-read-from-string text))))))

;;;; The up line: one request is out at a time

(defun troop--ask (seat request)
  "Put REQUEST behind those of SEAT that are to go out.
It is sent by a timer and never within a change of the buffer, since sending may
wait and let entries in."
  (setf (troop-seat-queue seat) (append (troop-seat-queue seat) (list request)))
  (run-at-time 0 nil #'troop--flush seat))

(defun troop--flush (seat)
  "Send the next request of SEAT, unless one is out."
  (unless (or (troop-seat-asked seat) (troop--has-ended seat))
    (when (and (eq (troop-seat-state seat) 'leaving)
               (null (troop-seat-queue seat))
               (= (troop-seat-awaits seat) 0))
      (setf (troop-seat-state seat) 'parting
            (troop-seat-queue seat) (list '((call . "leave")))))
    (when-let ((request (pop (troop-seat-queue seat))))
      (setf (troop-seat-asked seat) (troop--numbered seat request))
      (troop--send-asked seat))))

(defun troop--numbered (seat request)
  "Return the line of REQUEST under the next number of SEAT."
  (troop--line (cons (cons 'num (cl-incf (troop-seat-number seat))) request)))

(defun troop--send-asked (seat)
  "Send the line that SEAT asks, if its up link is open; else it goes out later."
  (let ((up (troop--link seat 'up)))
    (when (and up (process-get up 'opened))
      (setf (troop-seat-answer-due seat) (troop--due))
      (troop--send up (troop-seat-asked seat)))))

(defun troop--send (process line)
  "Send LINE over PROCESS."
  ;; Where the link is lost its sentinel says so too, and what was asked is asked again.
  (ignore-errors (process-send-string process line)))

(defun troop--take-reply (seat process reply)
  "Take REPLY, which came over the up link PROCESS of SEAT."
  (let-alist reply
    (setf (troop-seat-answer-due seat) nil)
    (cond (.no (troop--stop seat (troop--refusal reply)))
          ((process-get process 'opened)
           (setf (troop-seat-asked seat) nil
                 (troop-seat-entry-due seat) (cons .at (troop--due))))
          (t (process-put process 'opened t)
             (unless (troop-seat-who seat) (troop--sit-down seat .who .at))
             (when (troop-seat-asked seat) (troop--send-asked seat))))))

(defun troop--sit-down (seat who at)
  "Begin at SEAT as performer WHO, whose join stands at position AT."
  (setf (troop-seat-who seat) who
        (troop-seat-joined seat) at
        (troop-seat-people seat) (list (cons who (troop-seat-name seat)))
        (troop-seat-watchdog seat) (run-at-time 1 1 #'troop--watch-links seat))
  (troop--dial seat 'down)
  (troop--dial seat 'names))

(defun troop--refusal (reply)
  "Say what REPLY refuses."
  (let-alist reply
    (pcase .no
      ("crowded" "the server takes no more performers")
      ((or "member" "unfit") "the server doesn't know this performer, or no more")
      (_ (format "refused, %s" (json-serialize reply))))))

;;;; The down line: a snapshot, and then the entries behind it

(defun troop--take-snapshot (seat snapshot)
  "Begin SEAT's text with SNAPSHOT."
  (let-alist snapshot
    (when .no (error "%s" (troop--refusal snapshot)))
    (setf (troop-seat-shadow seat) (generate-new-buffer " *troop shadow*" t))
    (with-current-buffer (troop-seat-shadow seat)
      (buffer-disable-undo)
      (insert .text)
      (let ((at (point-min)))
        (pcase-dolist (`(,who ,count) .marks)
          (troop--mark at (+ at count) who)
          (cl-incf at count))))
    (let ((inhibit-read-only t) (buffer-undo-list t))
      (insert .text)
      (goto-char (point-min)))
    (troop--paint seat (point-min) (point-max))
    (setf (troop-seat-taken seat) .at))
  (troop--begin seat))

(defun troop--begin (seat)
  "Let SEAT play: its buffer has the shared text."
  (setf (troop-seat-tick seat) (buffer-chars-modified-tick)
        (troop-seat-state seat) 'playing)
  (setq buffer-read-only nil
        buffer-undo-list nil)
  (troop--watch)
  (message "Troop: at play as %s, performer %d" (troop-seat-name seat) (troop-seat-who seat)))

(defun troop--take-entry (seat entry)
  "Take ENTRY, the next one of the log."
  (troop--catch-up seat)
  (let-alist entry
    (when .no (error "%s" (troop--refusal entry)))
    (unless (eql .at (troop-seat-taken seat))
      (error "The entry of position %s came, and not that of %s" .at (troop-seat-taken seat)))
    (cl-incf (troop-seat-taken seat))
    (pcase .deed
      ((and "edit" (guard (eql .who (troop-seat-who seat)))) (troop--confirm seat .op))
      ((or "edit" "reset") (troop--take-other seat .op .who))
      ("eval" (troop--hear seat .who .at .text))
      ("join" (setf (alist-get .who (troop-seat-people seat)) .name))
      ("leave" (troop--see-off seat .who)))))

(defun troop--hear (seat who at text)
  "Tell the hooks of SEAT that WHO evaluated TEXT at position AT."
  (troop--settle-undo seat)
  (condition-case problem
      (run-hook-with-args 'troop-eval-functions who at text)
    (error (message "Troop: an evaluation wasn't taken: %s" (error-message-string problem)))))

(defun troop--see-off (seat who)
  "Take that performer WHO has left SEAT's Troop."
  (push who (troop-seat-gone seat))
  (setf (alist-get who (troop-seat-people seat) nil t) nil)
  (when (eql who (troop-seat-who seat)) (troop--stop seat "left")))

;; A snapshot has the numbers of those who joined earlier, and no names.  They are
;; read from the log's beginning, over a third link that is dropped at the own join.

(defun troop--take-name (seat entry)
  "Take the name, if there is one, of an ENTRY from before SEAT's join."
  (let-alist entry
    (pcase .deed
      ("join" (setf (alist-get .who (troop-seat-earlier seat)) .name))
      ("leave" (setf (alist-get .who (troop-seat-earlier seat) nil t) nil)))
    (when (eql .at (troop-seat-joined seat))
      (pcase-dolist (`(,who . ,name) (troop-seat-earlier seat))
        (unless (memq who (troop-seat-gone seat))
          (setf (alist-get who (troop-seat-people seat)) name)))
      (let ((link (troop--link seat 'names)))
        (setf (alist-get 'names (troop-seat-links seat) nil t) nil)
        (delete-process link)))))

;;;; Links

(defun troop--link (seat side)
  "Return the current process of SEAT for SIDE: `up', `down' or `names'."
  (alist-get side (troop-seat-links seat)))

(defun troop--is-dialled (seat side)
  "Return whether SEAT has a link for SIDE, or one that is being dialled."
  (let ((process (troop--link seat side)))
    (and process (process-live-p process))))

(defun troop--dial (seat side)
  "Dial a link of SEAT for SIDE, unless there is one."
  (unless (or (troop--has-ended seat) (troop--is-dialled seat side))
    (when (eq side 'up)
      (setf (troop-seat-answer-due seat) (troop--due)))
    (condition-case nil
        (setf (alist-get side (troop-seat-links seat))
              (make-network-process
               :name (format "troop %s" side)
               :host (troop-seat-host seat) :service (troop-seat-port seat)
               :nowait t :nodelay t :keepalive t :noquery t :coding 'binary
               :filter #'troop--filter :sentinel #'troop--sentinel
               :plist (list 'seat seat 'side side)))
      (error (troop--lose seat side)))))

(defun troop--opening (seat side)
  "Return the first request of SEAT on a link for SIDE."
  (let ((who (troop-seat-who seat)))
    (pcase side
      ('names `((call . "down") (from . 0) (who . ,who)))
      ((and 'down (guard (troop-seat-taken seat)))
       `((call . "down") (from . ,(troop-seat-taken seat)) (who . ,who)))
      ('down `((call . "snap") (who . ,who)))
      ((guard who) `((call . "back") (who . ,who)))
      (_ `((call . "stay") (lang . ,(troop-seat-lang seat)) (name . ,(troop-seat-name seat)))))))

(defun troop--sentinel (process _event)
  "Open the link of PROCESS, or dial anew where it is lost."
  (let ((seat (process-get process 'seat))
        (side (process-get process 'side)))
    (when (and (eq process (troop--link seat side)) (not (troop--has-ended seat)))
      (pcase (process-status process)
        ('open (troop--send process (troop--line (troop--opening seat side))))
        ((or 'closed 'failed 'exit 'signal) (troop--lose seat side))))))

(defun troop--lose (seat side)
  "Dial anew for SIDE of SEAT, after a pause, or give up where it never joined."
  (cond ((eq side 'names) nil)
        ((null (troop-seat-who seat))
         (troop--stop seat (format "nobody answers at %s:%s"
                                   (troop-seat-host seat) (troop-seat-port seat))))
        (t (when (eq side 'up)
             (setf (troop-seat-answer-due seat) nil))
           (run-at-time (troop--pause seat) nil #'troop--dial seat side)
           (force-mode-line-update t))))

(defun troop--pause (seat)
  "Return how many seconds SEAT waits before it dials anew."
  (min 5 (* 0.1 (expt 2 (min 6 (cl-incf (troop-seat-lost seat)))))))

(defun troop--due ()
  "Return the time up to which what is asked now should be answered."
  (+ (float-time) troop-patience))

(defun troop--watch-links (seat)
  "Drop the links of SEAT where an answer, or an entry that was told, is overdue."
  (let ((now (float-time))
        (down (troop--link seat 'down)))
    (pcase-let ((`(,at . ,due) (troop-seat-entry-due seat)))
      (when (or (and (troop-seat-answer-due seat) (< (troop-seat-answer-due seat) now))
                (and at (< due now)
                     (<= (or (troop-seat-taken seat) 0) at)
                     (not (and down (process-get down 'lines)))))
        (setf (troop-seat-answer-due seat) nil
              (troop-seat-entry-due seat) nil)
        (troop--drop-links seat)))))

(defun troop--drop-links (seat)
  "End both links of SEAT; their sentinels dial anew."
  (unless (troop--has-ended seat)
    (dolist (side '(up down))
      (when (troop--is-dialled seat side)
        (delete-process (troop--link seat side))))))

(defun troop--filter (process chunk)
  "Keep the lines of PROCESS that end in CHUNK, and take them.
Lines are told apart as bytes, and decoded then."
  (push chunk (process-get process 'pieces))
  (when (string-search "\n" chunk)
    (let ((lines (split-string (apply #'concat (nreverse (process-get process 'pieces))) "\n")))
      (process-put process 'pieces (last lines))
      (process-put process 'lines (append (process-get process 'lines) (butlast lines))))
    (setf (troop-seat-lost (process-get process 'seat)) 0)
    (troop--drain process)))

(defun troop--drain (process)
  "Take the lines of PROCESS, none while another is taken.
Entries wait while a command may hold places."
  (cond ((process-get process 'busy) nil)
        ((and (not (eq (process-get process 'side) 'up))
              (troop--may-hold-places (process-get process 'seat)))
         (unless (process-get process 'waiting)
           (process-put process 'waiting t)
           (run-at-time 0.05 nil #'troop--drain-again process)))
        (t (process-put process 'busy t)
           (unwind-protect (troop--take-lines process)
             (process-put process 'busy nil)))))

(defun troop--may-hold-places (seat)
  "Return whether a command is under way that may hold places as numbers.
One that waits for a key does, as `query-replace', and one that reads a word
with SEAT's region active: `string-rectangle' has taken its ends by then."
  (or this-command
      (when-let ((window (minibuffer-selected-window)))
        (and (eq (window-buffer window) (troop-seat-buffer seat))
             (buffer-local-value 'mark-active (troop-seat-buffer seat))))))

(defun troop--drain-again (process)
  "Take the lines of PROCESS that had to wait."
  (process-put process 'waiting nil)
  (troop--drain process))

(defun troop--take-lines (process)
  "Take all lines of PROCESS, unless its seat ends or dials anew."
  (let ((seat (process-get process 'seat)))
    (while (and (process-get process 'lines)
                (not (troop--has-ended seat))
                (eq process (troop--link seat (process-get process 'side))))
      (with-current-buffer (troop-seat-buffer seat)
        (troop--or-stop seat
          (troop--take-line seat process (troop--read-line (pop (process-get process 'lines)))))))
    (unless (troop--has-ended seat)
      (troop--settle-undo seat)
      (troop--flush seat))
    (force-mode-line-update t)))

(defun troop--take-line (seat process value)
  "Take VALUE, which a line of PROCESS said to SEAT."
  (pcase (process-get process 'side)
    ('up (troop--take-reply seat process value))
    ('names (troop--take-name seat value))
    ((guard (troop-seat-taken seat)) (troop--take-entry seat value))
    (_ (troop--take-snapshot seat value))))

(defun troop--part-in-haste (seat)
  "Ask for the leave of SEAT at once, whatever is awaited."
  (when (and (eq (troop-seat-state seat) 'playing) (troop--link seat 'up))
    (troop--send (troop--link seat 'up) (troop--numbered seat '((call . "leave"))))))

(defun troop--part-all ()
  "Ask for the leave of each seat as Emacs ends."
  (dolist (buffer (buffer-list))
    (when-let ((seat (buffer-local-value 'troop--seat buffer)))
      (when (eq buffer (troop-seat-buffer seat))
        (troop--part-in-haste seat)))))

;;;; Commands

(defun troop--lighter ()
  "Return what the mode line says: what is awaited, lost links, and who is here."
  (let ((state (troop-seat-state troop--seat)))
    (if (or (stringp state) (eq state 'opening))
        (format " Troop[%s]" state)
      (concat " Troop[" (troop--awaited troop--seat) (troop--lost-sides troop--seat)
              (mapconcat #'troop--shown-name
                         (sort (copy-sequence (troop-seat-people troop--seat)) #'car-less-than-car)
                         "")
              "]"))))

(defun troop--awaited (seat)
  "Return a sign of what SEAT awaits."
  (cond ((= (troop-seat-awaits seat) 2) "+")
        ((or (= (troop-seat-awaits seat) 1) (troop-seat-asked seat) (troop-seat-queue seat)) "~")
        (t "=")))

(defun troop--lost-sides (seat)
  "Return a word for each link of SEAT that is lost and dialled anew."
  (mapconcat (lambda (side)
               (let ((process (troop--link seat side)))
                 (if (and process (eq (process-status process) 'open)) ""
                   (format " no %s link" side))))
             '(up down) ""))

(defun troop--shown-name (person)
  "Return the name of PERSON, which is (NUMBER . NAME), with the person's face."
  (concat " " (propertize (format "%d:%s" (car person) (cdr person))
                          'face (troop--face (car person)))))

(defvar troop-mode-map
  (let ((map (make-sparse-keymap)))
    (define-key map (kbd "C-c C-c") #'troop-eval-block)
    map)
  "Keys of a shared buffer.")

(define-minor-mode troop-mode
  "What a shared buffer of a Troop has in any major mode.
The mode line says `=' where nothing is awaited, `~' where what was sent is,
and `+' where more is held back behind it; then the performers who are here."
  :lighter (:eval (troop--lighter))
  :interactive nil)
(put 'troop-mode 'permanent-local t)

(defun troop--set-up (seat)
  "Make the current buffer the one of SEAT."
  (setq troop--seat seat
        buffer-read-only t)
  (add-hook 'after-change-major-mode-hook #'troop--show-marks)
  (add-hook 'kill-emacs-hook #'troop--part-all)
  (troop--show-marks)
  (troop-mode))

(defun troop--read-connection ()
  "Read the arguments of `troop-connect'."
  (list (read-string "Host: " nil nil "127.0.0.1")
        (read-number "Port: " 7007)
        (read-string "Name: " nil nil (user-login-name))
        (completing-read "Language: " '("lines" "ghci") nil t nil nil "lines")))

;;;###autoload
(defun troop-connect (host port name lang)
  "Join the Troop at HOST and PORT as NAME, and return the shared buffer.
LANG says how blocks are given to an interpreter, \"lines\" or \"ghci\"."
  (interactive (troop--read-connection))
  (unless (fboundp 'json-serialize)
    (user-error "This Emacs was built without JSON"))
  (unless (and (<= 1 (length name) 32) (not (string-match-p troop--unfit name)))
    (user-error "A name has 1 to 32 characters"))
  (let* ((buffer (generate-new-buffer "*troop*"))
         (seat (troop--new-seat :buffer buffer :host host :port port :name name :lang lang)))
    (with-current-buffer buffer
      (troop--set-up seat))
    (troop--dial seat 'up)
    (pop-to-buffer-same-window buffer)
    buffer))

(defun troop-leave ()
  "Leave once all that was typed is placed.  The text stays in the buffer."
  (interactive)
  (let ((seat (troop--here)))
    (troop--catch-up seat)
    (setf (troop-seat-state seat) 'leaving)
    (with-current-buffer (troop-seat-buffer seat)
      (setq buffer-read-only t))
    (run-at-time 0 nil #'troop--flush seat)))

(defun troop-redial ()
  "Dial both links anew, as after a change of the network."
  (interactive)
  (unless troop--seat (user-error "This buffer has no seat in a Troop"))
  (troop--drop-links troop--seat))

(defun troop-author ()
  "Say who put in the character behind point."
  (interactive)
  (let ((who (get-text-property (point) 'troop-who)))
    (message "%s" (if who
                      (format "%d:%s" who (alist-get who (troop-seat-people troop--seat) "(left)"))
                    "No character"))))

(defun troop--block-bounds ()
  "Return (START . END) of the block round point, or nil on a blank line.
It is the largest run of neighbouring lines without a blank one."
  (save-restriction
    (widen)
    (save-excursion
      (let ((inhibit-field-text-motion t) (blank "[ \t\r]*$") start end)
        (forward-line 0)
        (unless (looking-at-p blank)
          (setq start (point)
                end (line-end-position))
          (save-excursion
            (while (and (zerop (forward-line 1)) (not (looking-at-p blank)))
              (setq end (line-end-position))))
          (while (and (zerop (forward-line -1)) (not (looking-at-p blank)))
            (setq start (point)))
          (cons start end))))))

(defun troop-eval-block ()
  "Have everybody's interpreter evaluate the block round point."
  (interactive)
  (let ((seat (troop--here)))
    (troop--catch-up seat)
    (pcase (troop--block-bounds)
      ('nil (user-error "There is no block on a blank line"))
      (`(,start . ,end)
       (troop--ask-text seat "eval" (save-restriction
                                      (widen)
                                      (buffer-substring-no-properties start end)))
       (pulse-momentary-highlight-region start end)))))

(defun troop-reset (text)
  "Ask for TEXT in the place of the whole text, whatever others type meanwhile."
  (interactive "sText: ")
  (troop--ask-text (troop--here) "reset" text))

(defun troop--ask-text (seat call text)
  "Ask SEAT's CALL, an evaluation or a reset, with TEXT, if it fits in a line."
  (let ((request `((call . ,call) (seen . ,(troop-seat-taken seat)) (text . ,text))))
    (when (> (+ (length (troop--line request)) troop-op--part-cost) troop--longest-line)
      (user-error "The text is too long for one request"))
    (troop--ask seat request)))

;;;; An interpreter

(defun troop-perform (command)
  "Run COMMAND as an interpreter that is given all evaluations, by `troop perform'.
It takes a seat of its own, and leaves when this seat ends."
  (interactive (list (read-shell-command "Interpreter: ")))
  (let* ((seat (troop--here))
         (words (split-string-shell-command command)))
    (when (troop--has-interpreter seat)
      (user-error "This seat has an interpreter"))
    (setf (troop-seat-interpreter seat)
          (make-process
           :name "troop perform"
           :buffer (get-buffer-create "*troop perform*")
           ;; Its input is held open: the end of it is a leave.
           :connection-type 'pipe
           :noquery t
           :command `(,troop-program "perform" ,(troop--address seat) ,(troop--listener seat words)
                                     ,(troop-seat-lang seat)
                                     ,@(when troop-boot-file
                                         (list "--boot" (expand-file-name troop-boot-file)))
                                     "--" ,@words)))
    (display-buffer "*troop perform*")))

(defun troop--has-interpreter (seat)
  "Return whether the process of SEAT's interpreter is alive."
  (and (troop-seat-interpreter seat) (process-live-p (troop-seat-interpreter seat))))

(defun troop--end-interpreter (seat)
  "End the input of SEAT's interpreter, if there is one, so that it leaves."
  (when (troop--has-interpreter seat)
    (process-send-eof (troop-seat-interpreter seat))))

(defun troop--address (seat)
  "Return the address of SEAT's server as one word."
  (format (if (string-search ":" (troop-seat-host seat)) "[%s]:%s" "%s:%s")
          (troop-seat-host seat) (troop-seat-port seat)))

(defun troop--listener (seat words)
  "Return the name under which the interpreter that WORDS call sits beside SEAT."
  (truncate-string-to-width
   (format "%s~%s" (troop-seat-name seat) (file-name-nondirectory (car words))) 32))

(provide 'troop)

;;; troop.el ends here
