;; Types, waits and reads in Emacs with the configuration of docs/EDITORS.md for lsp-mode. It writes a line for each
;; thing that it saw.
(setq lsp-auto-guess-root t lsp-enable-file-watchers nil lsp-keep-workspace-alive nil lsp-auto-configure nil
      lsp-diagnostics-provider :none lsp-session-file (expand-file-name "session") lsp-restart 'ignore
      lsp-enable-snippet nil lsp-completion-provider :none)
(remove-hook 'lsl-mode-hook #'lsp)

(defun say (&rest words) (princ (concat (mapconcat (lambda (it) (format "%s" it)) words " ") "\n")))

(defun wait (what holds)
  (let ((end (+ (float-time) 30)))
    (while (and (not (funcall holds)) (< (float-time) end)) (accept-process-output nil 0.05))
    (say what (if (funcall holds) "true" "false"))))

(defun go (line column) (goto-char (point-min)) (forward-line (1- line)) (forward-char column))

(defun faults () (gethash (file-truename buffer-file-name) (lsp-diagnostics)))

(lsp-workspace-folders-add default-directory)
(find-file "trial.lsl")
(say "mode" major-mode)
(lsp)
(wait "managed" (lambda () (and (lsp-workspaces) (eq 'initialized (lsp--workspace-status (car (lsp-workspaces)))))))
(wait "fault" #'faults)
(let ((fault (car (faults))))
  (say "fault" (gethash "line" (gethash "start" (gethash "range" fault))) (gethash "message" fault)))
(go 12 9)
(let ((hover (lsp-request "textDocument/hover" (lsp--text-document-position-params))))
  (say "hover" (replace-regexp-in-string "\n" " / " (gethash "value" (gethash "contents" hover)))))
(go 12 20)
(lsp-rename "words")
(go 12 0)
(say "rename" (not (null (search-forward "words" (line-end-position) t))))
(lsp-format-buffer)
(say "formatted" (buffer-modified-p))
(set-buffer-modified-p nil)

(say "ended")
