;; Debugs in Emacs with the configuration of docs/EDITORS.md for dap-mode. It writes a line for each thing that it saw.
(setq lsp-auto-guess-root t lsp-session-file (expand-file-name "session") dap-breakpoints-file (expand-file-name "dap")
      dap-auto-show-output nil dap-auto-configure-features nil)

(defun say (&rest words) (princ (concat (mapconcat (lambda (it) (format "%s" it)) words " ") "\n")))

(defun wait (what holds)
  (let ((end (+ (float-time) 60)))
    (while (and (not (funcall holds)) (< (float-time) end)) (accept-process-output nil 0.05))
    (say what (if (funcall holds) "true" "false"))))

(defvar stops nil)
(defvar ended nil)
(add-hook 'dap-stopped-hook (lambda (session) (push session stops)))
(add-hook 'dap-terminated-hook (lambda (_) (setq ended t)))

(defun here ()
  (let ((frame (dap--debug-session-active-frame (dap--cur-session))))
    (and frame (list (gethash "name" frame) (gethash "line" frame)))))

(defun go (what command)
  (let ((before (length stops)))
    (funcall command (dap--cur-session))
    (wait what (lambda () (and (> (length stops) before) (here))))
    (say what "at" (here))))

(find-file "trial.lsl")
(while (search-forward "llSya" nil t) (replace-match "llSay"))
(save-buffer)
(let ((conf (list :type "lsl" :request "launch" :name "Trial" :program (expand-file-name "trial.lsl")
                  :args ["--touch" "Ann"] :cwd default-directory)))
  (dap-start-debugging (funcall (gethash "lsl" dap--debug-providers) conf)))
(wait "stopped" (lambda () (and stops (dap--cur-session) (here))))
(say "stopped at" (here))
(go "step" #'dap-step-in)
(go "next" #'dap-next)
(dap-disconnect (dap--cur-session))
(wait "ended" (lambda () (not (dap--session-running (dap--cur-session)))))
