;;; units.el --- Tests of troop.el without a server  -*- lexical-binding: t; -*-

;; emacs -Q --batch -L clients/emacs -l tests/emacs/units.el

(require 'ert)
(require 'troop)

(defconst units-folder (file-name-directory (or load-file-name buffer-file-name)))

;;;; Vectors

(defun units-applied (op text)
  "Return what OP makes of TEXT."
  (with-temp-buffer
    (insert text)
    (troop--apply op 1)
    (buffer-substring-no-properties (point-min) (point-max))))

(defun units-try-vector (vector)
  "Hold the functions on operations against VECTOR."
  (let-alist vector
    (should (equal (troop-op-normal .spelled) .first))
    (should (equal (troop-op-transform .first .second) (cons .first_moved .second_moved)))
    (should (equal (troop-op-compose .first .next) .composed))
    (should (equal (units-applied .second_moved (units-applied .first .text)) .merged))
    (should (equal (units-applied .first_moved (units-applied .second .text)) .merged))
    (should (equal (units-applied .composed .text) .after))
    (should (equal (cl-loop for place from 0 to (length .text)
                            collect (troop-op-moved-place .first place))
                   .places))
    (dolist (room '(30 60 100))
      (pcase-let ((`(,first . ,rest) (troop-op-cut .first room)))
        (should (equal (if rest (troop-op-compose first rest) first) .first))))))

(ert-deftest operations-are-as-in-the-vectors ()
  (let ((count 0))
    (with-temp-buffer
      (set-buffer-multibyte nil)
      (insert-file-contents-literally
       (expand-file-name "../../crates/vectors/data/operations.jsonl" units-folder))
      (while (not (eobp))
        (units-try-vector (troop--read-line (buffer-substring (point) (line-end-position))))
        (cl-incf count)
        (forward-line 1)))
    (message "units: %d vectors" count)
    (should (> count 200))))

(ert-deftest many-operations-are-composed-as-one-by-one ()
  (let ((ops (cl-loop for length from 0 to 40 collect (troop-op-splice (/ length 2) "x" 0 length))))
    (should (equal (troop-op-compose-all (copy-sequence ops))
                   (cl-reduce #'troop-op-compose ops)))))

;;;; A seat without links

(defun units-sit (text)
  "Return a seat of performer 2 on TEXT by performer 1, in the selected window."
  (let* ((buffer (generate-new-buffer "seat"))
         (seat (troop--new-seat :buffer buffer :host "nowhere" :port 0 :name "two" :lang "lines"
                                :who 2 :joined 4 :people (list (cons 2 "two")))))
    (switch-to-buffer buffer)
    (buffer-enable-undo)
    ;; No command is under way, though some that are tested leave a trace here.
    (setq this-command nil)
    (troop--set-up seat)
    (troop--take-snapshot seat `((at . 5) (text . ,text)
                                 (marks . ,(unless (string-empty-p text)
                                             `((1 ,(length text)))))))
    seat))

(defun units-rise (seat)
  "Let SEAT end, whose buffer is to hold what was told."
  (with-current-buffer (troop-seat-buffer seat)
    (should (eq (troop-seat-state seat) 'playing))
    (widen)
    (should (equal (buffer-string) (with-current-buffer (troop-seat-shadow seat) (buffer-string))))
    (should (equal (troop-marks) (with-current-buffer (troop-seat-shadow seat) (troop-marks))))
    (troop--stop seat "done")
    (kill-buffer)))

(defmacro units-with-seat (text &rest body)
  "Do BODY in the buffer of a `seat' on TEXT."
  (declare (indent 1))
  `(let ((seat (units-sit ,text)))
     (ignore seat)
     ,@body
     (units-rise seat)))

(defun units-take (seat &rest entry)
  "Let SEAT take ENTRY, a plist."
  (with-current-buffer (troop-seat-buffer seat)
    (troop--take-entry seat `((at . ,(troop-seat-taken seat))
                              ,@(cl-loop for (key value) on entry by #'cddr
                                         collect (cons (intern (substring (symbol-name key) 1))
                                                       value))))
    (troop--settle-undo seat)))

(defun units-other (seat op)
  "Let SEAT take OP by performer 1."
  (units-take seat :who 1 :deed "edit" :op op))

(defun units-confirm (seat)
  "Let SEAT take what it awaits."
  (while (> (troop-seat-awaits seat) 0)
    (units-take seat :who 2 :deed "edit" :op (troop-seat-sent seat))))

(defun units-undo ()
  "Undo the last command."
  (undo-boundary)
  (setq last-command 'other)
  (undo))

(defun units-undo-on ()
  "Undo one command more."
  (undo-boundary)
  (setq last-command 'undo)
  (undo))

(defun units-text ()
  "Return the text of the current buffer."
  (buffer-substring-no-properties (point-min) (point-max)))

;;;; Others' edits

(ert-deftest point-mark-and-windows-stay-with-the-text ()
  (units-with-seat "one two three"
    (goto-char 5)
    (set-mark 9)
    (activate-mark)
    (split-window)
    (set-window-point (next-window) 4)
    (set-window-start (next-window) 2 t)
    (units-other seat '("zero " 13))
    (should (looking-at "two"))
    (should (= (mark) 14))
    (should mark-active)
    (should (= (window-point (next-window)) 9))
    (should (= (window-start (next-window)) 7))
    (units-other seat '(9 "X" 9))
    (should (looking-at "Xtwo"))
    (units-other seat '(9 -4 6))
    (should (looking-at " three"))
    (delete-other-windows)))

(ert-deftest a-narrowed-buffer-stays-narrowed ()
  (units-with-seat "one two three"
    (narrow-to-region 5 8)
    (units-other seat '("A" 5 "-" 8 "B"))
    (should (equal (units-text) "t-wo"))
    (goto-char (point-max))
    (insert "!")
    (should (equal (troop-seat-sent seat) '(9 "!" 7)))))

(ert-deftest a-reset-confirms-nothing ()
  (units-with-seat "abc"
    (goto-char 2)
    (insert "x")
    (units-take seat :who 2 :deed "reset" :op '("new" -3))
    (should (equal (units-text) "newx"))
    (should (= (troop-seat-awaits seat) 1))
    (units-confirm seat)))

(ert-deftest an-operation-of-nothing-is-awaited ()
  (units-with-seat "abc"
    (erase-buffer)
    (units-other seat '(-3))
    (should (null (troop-seat-sent seat)))
    (should (= (troop-seat-awaits seat) 1))
    (units-other seat '("R"))
    (should (equal (troop-seat-sent seat) '(1)))
    (insert "q")
    (should (= (troop-seat-awaits seat) 2))
    (units-confirm seat)
    (should (equal (units-text) "qR"))))

(ert-deftest what-is-held-back-goes-out-as-one ()
  (units-with-seat "abc"
    (goto-char 4)
    (insert "d")
    (insert "e")
    (delete-region 1 2)
    (should (= (troop-seat-awaits seat) 2))
    (units-other seat '(3 "R"))
    (should (equal (units-text) "bcdeR"))
    (units-take seat :who 2 :deed "edit" :op '(3 "d" 1))
    (should (= (troop-seat-awaits seat) 1))
    (should (equal (troop-seat-sent seat) '(-1 3 "e" 1)))
    (units-confirm seat)))

(ert-deftest a-wrong-entry-ends-the-seat-and-keeps-the-text ()
  (dolist (entry '((:at 99 :who 1 :deed "eval" :text "")
                   (:at 5 :who 1 :deed "edit" :op (77))
                   (:at 5 :who 2 :deed "edit" :op (3))
                   (:no "unfit" :line 1)))
    (let ((seat (units-sit "abc")))
      (with-current-buffer (troop-seat-buffer seat)
        (troop--or-stop seat
          (troop--take-entry seat (cl-loop for (key value) on entry by #'cddr
                                           collect (cons (intern (substring (symbol-name key) 1))
                                                         value))))
        (should (stringp (troop-seat-state seat)))
        (should (equal (units-text) "abc"))
        (insert "still writable")
        (kill-buffer)))))

;;;; Entries that wait

(defun units-come (seat op)
  "Let OP by performer 1 come over a link of SEAT."
  (let ((down (or (troop--link seat 'down)
                  (setf (alist-get 'down (troop-seat-links seat))
                        (make-pipe-process :name "down" :noquery t
                                           :plist (list 'seat seat 'side 'down))))))
    (troop--filter down (troop--line `((at . ,(troop-seat-taken seat)) (who . 1)
                                       (deed . "edit") (op . ,(vconcat op)))))
    (accept-process-output nil 0.1)))

(defun units-becomes (text)
  "Return whether the current buffer's text becomes TEXT within some seconds."
  (let ((end (+ (float-time) 10)))
    (while (and (not (equal (units-text) text)) (< (float-time) end))
      (accept-process-output nil 0.02))
    (equal (units-text) text)))

(ert-deftest entries-wait-while-a-command-waits-for-a-key ()
  (units-with-seat "abc"
    (let ((this-command 'query-replace))
      (units-come seat '("one " 3))
      (should (equal (units-text) "abc")))
    (should (units-becomes "one abc"))))

(ert-deftest entries-wait-while-a-command-reads-a-word-for-the-region ()
  (units-with-seat "abc"
    (let (asked-in)
      (cl-letf (((symbol-function 'minibuffer-selected-window) (lambda () asked-in)))
        (set-mark 4)
        (activate-mark)
        (setq asked-in (selected-window))
        (units-come seat '("one " 3))
        (should (equal (units-text) "abc"))
        (setq asked-in nil)
        (should (units-becomes "one abc"))
        (setq asked-in (selected-window))
        (deactivate-mark)
        (units-come seat '("two " 7))
        (should (units-becomes "two one abc"))))))

(ert-deftest a-replacement-crosses-what-came-later ()
  (units-with-seat "foo"
    (cl-letf (((symbol-function 'read-event) (lambda (&rest _) ?y)))
      (perform-replace "oo" "00" t nil nil))
    (units-other seat '(1 "b" 2))
    (should (equal (units-text) "f00b"))
    (units-confirm seat)))

;;;; Own changes

(ert-deftest each-change-is-one-operation ()
  (units-with-seat "abc\n  def\n"
    (goto-char 2)
    (insert "x")
    (should (equal (troop-seat-sent seat) '(1 "x" 9)))
    (should (equal (troop-marks) '((1 1) (2 1) (1 9))))
    (upcase-region 1 5)
    (should (equal (troop--held-back seat) '("AXBC" -4 7)))
    (transpose-regions 1 3 8 10)
    (indent-rigidly 1 (point-max) 2)
    (sort-lines nil 1 (point-max))
    (units-confirm seat)))

(ert-deftest a-change-without-hooks-is-found ()
  (units-with-seat "abc"
    (let ((inhibit-modification-hooks t))
      (insert "silent "))
    (insert "told ")
    (should (equal (units-text) "silent told abc"))
    (let ((inhibit-modification-hooks t))
      (delete-region 1 8))
    (run-hooks 'post-command-hook)
    (units-confirm seat)))

(ert-deftest properties-are-no-change-and-marks-come-from-the-log ()
  (units-with-seat "abc"
    (put-text-property 1 3 'invisible 'x)
    (should (= (troop-seat-awaits seat) 0))
    (kill-region 1 3)
    (goto-char (point-max))
    (yank)
    (should (equal (troop-marks) '((1 1) (2 2))))
    (units-confirm seat)))

(ert-deftest a-change-in-a-clone-is-told-once ()
  (units-with-seat "abc"
    (let ((clone (make-indirect-buffer (current-buffer) "clone" t)))
      (with-current-buffer clone
        (goto-char 2)
        (insert "x")
        (run-hooks 'post-command-hook))
      (should (equal (troop-seat-sent seat) '(1 "x" 2)))
      (should (= (troop-seat-awaits seat) 1))
      (kill-buffer clone)
      (should (eq (troop-seat-state seat) 'playing)))
    (units-confirm seat)))

(ert-deftest another-major-mode-keeps-the-seat ()
  (units-with-seat "abc"
    (emacs-lisp-mode)
    (goto-char 1)
    (insert "x")
    (run-hooks 'post-command-hook)
    (should (equal (troop-seat-sent seat) '("x" 3)))
    (should troop-mode)
    (should (eq (key-binding (kbd "C-c C-c")) #'troop-eval-block))
    (units-confirm seat)))

(ert-deftest a-long-paste-goes-out-in-pieces ()
  (units-with-seat "abc"
    (goto-char 2)
    (insert (make-string 200000 ?\u0001))
    (let ((pieces 0))
      (while (> (troop-seat-awaits seat) 0)
        (let ((request (car (last (troop-seat-queue seat)))))
          (should (< (length (troop--line request)) troop--longest-line)))
        (cl-incf pieces)
        (units-take seat :who 2 :deed "edit" :op (troop-seat-sent seat)))
      (should (= pieces 3)))))

(ert-deftest a-text-that-fits-in-no-line-is-refused-and-stays ()
  (units-with-seat "abc"
    (insert (make-string 200000 ?\u0001))
    (should-error (troop-eval-block) :type 'user-error)
    (should (= (buffer-size) 200003))
    (should-error (troop-reset (make-string 1100000 ?x)) :type 'user-error)
    (units-confirm seat)))

(ert-deftest characters-that-no-line-can-hold-are-spelled-out ()
  (units-with-seat "abc"
    (goto-char 2)
    (undo-boundary)
    (insert (string #x3fffff #xd800 ?z #x110000))
    (should (= (troop-seat-awaits seat) 0))
    (insert "!")
    (run-hooks 'post-command-hook)
    (should (equal (units-text) "a\\377\\xd800z\\x110000!bc"))
    (should (looking-at "bc"))
    (units-confirm seat)
    (units-undo)
    (run-hooks 'post-command-hook)
    (should (equal (units-text) "abc"))
    (units-confirm seat)))

(ert-deftest characters-of-every-kind-go-through-a-line ()
  (let ((text "\0\r\n\t\"\\/\x7f é漢😀\u2028\ufeff\uffff"))
    (should (equal text (alist-get 'text (troop--read-line
                                          (string-trim-right (troop--line `((text . ,text))) "\n")))))
    (units-with-seat text
      (units-other seat (list text (length text)))
      (should (equal (units-text) (concat text text))))))

;;;; Undo

(ert-deftest undo-takes-back-the-own-alone ()
  (units-with-seat "base"
    (goto-char 5)
    (undo-boundary)
    (insert "mine")
    (units-confirm seat)
    (units-other seat '(6 "THEIRS" 2))
    (units-other seat '("H" 14))
    (should (equal (units-text) "HbasemiTHEIRSne"))
    (units-undo)
    (should (equal (units-text) "HbaseTHEIRS"))
    (units-confirm seat)))

(ert-deftest undo-brings-back-where-the-text-went ()
  (units-with-seat "Hbase"
    (undo-boundary)
    (delete-region 2 4)
    (units-confirm seat)
    (units-other seat '("123" 3))
    (units-other seat '(4 -1 1))
    (units-undo)
    (should (equal (units-text) "123Hbae"))
    (units-confirm seat)))

(ert-deftest undo-leaves-out-what-others-removed ()
  (units-with-seat "ab"
    (goto-char 2)
    (undo-boundary)
    (insert "xyz")
    (units-confirm seat)
    (units-other seat '(2 -1 2))
    (units-undo)
    (should (equal (units-text) "ab"))
    (units-confirm seat)
    (undo-boundary)
    (goto-char 2)
    (insert "q")
    (units-confirm seat)
    (units-other seat '(1 -1 1))
    (units-undo)
    (should (equal (units-text) "ab"))))

(ert-deftest undo-goes-on-among-edits-of-others ()
  (units-with-seat "one\n"
    (goto-char 5)
    (undo-boundary)
    (insert "a")
    (undo-boundary)
    (insert "b")
    (undo-boundary)
    (delete-region 5 7)
    (units-confirm seat)
    (units-undo)
    (should (equal (units-text) "one\nab"))
    (units-confirm seat)
    (units-other seat '(5 "X" 1))
    (should (equal (units-text) "one\naXb"))
    (units-undo-on)
    (should (equal (units-text) "one\naX"))
    (units-undo-on)
    (should (equal (units-text) "one\nX"))
    (units-confirm seat)))

(ert-deftest undo-of-a-combined-change ()
  (units-with-seat "(a)\n(b)\n"
    (emacs-lisp-mode)
    (undo-boundary)
    (goto-char 1)
    (insert "(z)\n")
    (undo-boundary)
    (comment-region 1 (point-max))
    (run-hooks 'post-command-hook)
    (units-confirm seat)
    (units-other seat (list "X\n" (buffer-size)))
    (units-undo)
    (should (equal (units-text) "X\n(z)\n(a)\n(b)\n"))
    (units-undo-on)
    (should (equal (units-text) "X\n(a)\n(b)\n"))
    (run-hooks 'post-command-hook)
    (units-confirm seat)))

(ert-deftest an-unknown-step-ends-the-undo-list ()
  (units-with-seat "abc"
    (undo-boundary)
    (insert "x")
    (undo-boundary)
    (push '(apply ignore) buffer-undo-list)
    (undo-boundary)
    (insert "y")
    (units-confirm seat)
    (units-other seat '("R" 5))
    (units-undo)
    (should (equal (units-text) "Rxabc"))
    (units-undo-on)
    (should (equal (units-text) "Rxabc"))
    (units-confirm seat)))

;;;; Blocks and evaluations

(ert-deftest a-block-is-the-lines-round-a-place ()
  (units-with-seat "a\nb\n \t\r\nc\n\nd"
    (pcase-dolist (`(,place . ,block)
                   '((0 . "a\nb") (1 . "a\nb") (2 . "a\nb") (3 . "a\nb") (4) (7)
                     (8 . "c") (9 . "c") (10) (11 . "d") (12 . "d")))
      (goto-char (1+ place))
      (pcase (troop--block-bounds)
        ('nil (should-not block))
        (`(,start . ,end) (should (equal (buffer-substring-no-properties start end) block)))))
    (goto-char 1)
    (narrow-to-region 1 2)
    (should (equal (troop--block-bounds) '(1 . 4)))
    (widen)
    (goto-char (point-max))
    (insert "\n")
    (should-not (troop--block-bounds))
    (units-confirm seat)))

(ert-deftest a-block-is-asked-for-behind-what-was-typed ()
  (units-with-seat "one\n\ntwo\n"
    (goto-char 7)
    (insert "!")
    (troop-eval-block)
    (should (equal (mapcar (lambda (request) (alist-get 'call request)) (troop-seat-queue seat))
                   '("edit" "eval")))
    (should (equal (alist-get 'text (nth 1 (troop-seat-queue seat))) "t!wo"))
    (goto-char 5)
    (should-error (troop-eval-block) :type 'user-error)
    (units-confirm seat)))

(ert-deftest evaluations-of-everybody-reach-the-hooks ()
  (units-with-seat "abc"
    (let* (heard
           (troop-eval-functions (list (lambda (&rest told) (push told heard))
                                       (lambda (&rest _) (error "Broken")))))
      (units-take seat :who 1 :deed "eval" :text "hush")
      (units-take seat :who 2 :deed "eval" :text "d1\nd2")
      (should (equal (reverse heard) '((1 5 "hush") (2 6 "d1\nd2")))))))

(ert-deftest the-hook-of-the-readme-feeds-a-shell ()
  (let* ((readme (with-temp-buffer
                   (insert-file-contents (expand-file-name "../../clients/emacs/README.md" units-folder))
                   (buffer-string)))
         (start (string-search "    (add-hook 'troop-eval-functions" readme))
         (troop-eval-functions nil))
    (eval (car (read-from-string readme start)) t)
    (let ((shell (make-process :name "shell" :buffer (generate-new-buffer "heard")
                               :command '("sh") :connection-type 'pipe :noquery t)))
      (units-with-seat "abc"
        (units-take seat :who 1 :deed "eval" :text "echo one\necho $((40 + 2))"))
      (process-send-eof shell)
      (while (process-live-p shell) (accept-process-output shell 0.1))
      ;; A process may have ended before all that it wrote was read.
      (while (accept-process-output shell 0.2))
      (should (string-prefix-p "one\n42\n" (with-current-buffer "heard" (buffer-string))))
      (kill-buffer "heard"))))

;;;; Who is here

(ert-deftest names-come-from-joins-and-from-the-start-of-the-log ()
  (units-with-seat "abc"
    (units-take seat :who 5 :deed "join" :name "cleo" :lang "ghci")
    (units-take seat :who 1 :deed "leave")
    (setf (alist-get 'names (troop-seat-links seat))
          (make-process :name "names" :command '("cat") :connection-type 'pipe :noquery t))
    (dolist (entry '(((at . 0) (who . 1) (deed . "join") (name . "ann"))
                     ((at . 1) (who . 3) (deed . "join") (name . "bo"))
                     ((at . 2) (who . 4) (deed . "join") (name . "dan"))
                     ((at . 3) (who . 4) (deed . "leave"))
                     ((at . 4) (who . 2) (deed . "join") (name . "two"))))
      (troop--take-name seat entry))
    (should (equal (sort (troop-seat-people seat) #'car-less-than-car)
                   '((2 . "two") (3 . "bo") (5 . "cleo"))))
    (should-not (troop--link seat 'names))))

(ert-deftest performers-are-told-apart-without-colour ()
  (let ((troop-colours nil))
    (should (= 8 (length (delete-dups (mapcar #'troop--attributes (number-sequence 1 8)))))))
  (should (= 64 (length (delete-dups (mapcar #'troop--attributes (number-sequence 1 64)))))))

(ert-deftest marks-show-where-font-lock-shows-more ()
  (units-with-seat "(defun a ())\n"
    (font-lock-ensure)
    (should (equal (get-text-property 3 'face) '(troop-performer-1)))
    (goto-char 3)
    (insert "x")
    (font-lock-ensure)
    (should (equal (get-text-property 3 'face) '(troop-performer-2)))
    (delete-char -1)
    (emacs-lisp-mode)
    (font-lock-ensure)
    (should (equal (get-text-property 3 'face) '(troop-performer-1 font-lock-keyword-face)))
    (run-hooks 'post-command-hook)
    (units-confirm seat)))

(ert-deftest the-mode-line-says-what-is-awaited ()
  (units-with-seat "abc"
    (should (string-match-p "\\` Troop\\[= no up link no down link 2:two\\]\\'" (troop--lighter)))
    (insert "x")
    (should (string-search "[~" (troop--lighter)))
    (insert "y")
    (should (string-search "[+" (troop--lighter)))
    (units-confirm seat)))

(ert-deftest a-name-has-1-to-32-characters ()
  (dolist (name (list "" (make-string 33 ?x) "\ud800"))
    (should-error (troop-connect "127.0.0.1" 1 name "lines") :type 'user-error)))

(ert-run-tests-batch-and-exit)
;;; units.el ends here
