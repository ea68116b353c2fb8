;;; buildifier.el --- Formats BUILD files by buildifier when they are saved  -*- lexical-binding: t -*-

;; Set up: put this file into a folder of `load-path', and (require 'buildifier) into the init file. WORKSPACE, MODULE.bazel and
;; *.BUILD are formatted too, and with (setq buildifier-bzl t) .bzl files. A text that buildifier refuses is saved as it is, and the
;; refusal is shown after that.

;;; Code:

(defvar buildifier-command "buildifier"
  "The program that formats a text from standard input to standard output.")

(defvar buildifier-bzl nil
  "Whether .bzl files are formatted when they are saved.")

(defvar-local buildifier--refusal nil
  "What buildifier said of this buffer's text, where it refused it.")

(defun buildifier--bzl-p ()
  "Whether this buffer is of a .bzl file."
  (and buffer-file-name (string-suffix-p ".bzl" buffer-file-name)))

(defun buildifier--build-p ()
  "Whether this buffer is of a file that is read as a BUILD file."
  (and buffer-file-name
       (let ((name (file-name-nondirectory buffer-file-name)))
         (or (member name '("BUILD" "BUILD.bazel" "WORKSPACE" "WORKSPACE.bazel" "MODULE.bazel"))
             (string-suffix-p ".BUILD" name)))))

(defun buildifier--call (formatted refusal)
  "Format the buffer into the buffer FORMATTED, with standard error in the file REFUSAL, and give the status."
  (let ((coding-system-for-read 'utf-8-unix)
        (coding-system-for-write 'utf-8-unix)
        (type (if (buildifier--bzl-p) "--type=bzl" "--type=build")))
    (call-process-region nil nil buildifier-command nil (list formatted refusal) nil type)))

(defun buildifier--format ()
  "Format this buffer, where buildifier accepts it, and keep what it says otherwise."
  (let ((formatted (generate-new-buffer " *buildifier*"))
        (refusal (make-temp-file "buildifier")))
    (setq buildifier--refusal nil)
    (unwind-protect
        (if (eq 0 (buildifier--call formatted refusal))
            (replace-buffer-contents formatted)
          (setq buildifier--refusal
                (string-trim (with-temp-buffer (insert-file-contents refusal) (buffer-string)))))
      (kill-buffer formatted)
      (delete-file refusal))))

(defun buildifier--report ()
  "Show what buildifier said, where it refused the text."
  (when buildifier--refusal
    (message "buildifier: %s" buildifier--refusal)))

(defun buildifier-buffer ()
  "Format this buffer, where buildifier accepts it."
  (interactive)
  (buildifier--format)
  (buildifier--report))

(defun buildifier-set-up ()
  "Format this buffer whenever it is saved, where it is a BUILD file, or a .bzl file and `buildifier-bzl' is set."
  (when (or (buildifier--build-p) (and buildifier-bzl (buildifier--bzl-p)))
    (add-hook 'before-save-hook #'buildifier--format nil t)
    ;; the line that Emacs shows of a save would cover a refusal that is shown before it
    (add-hook 'after-save-hook #'buildifier--report nil t)))

(require 'subr-x)
(add-hook 'find-file-hook #'buildifier-set-up)

(provide 'buildifier)
;;; buildifier.el ends here
