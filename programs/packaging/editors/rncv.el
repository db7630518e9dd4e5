;;; rncv.el --- Judge XML documents by rncv-xml  -*- lexical-binding: t; -*-

;;; Commentary:

;; In the startup file:
;;
;;   (require 'rncv)
;;
;; `M-x rncv-validate' in a buffer with an XML document asks for the schema, and
;; shows what rncv-xml tells; `next-error' goes to the place.  The variable
;; `rncv-schema', which a file or a folder may set, is what it offers.

;;; Code:

(require 'compile)

(defgroup rncv nil
  "Judge XML documents by RELAX NG schemas."
  :group 'tools)

(defcustom rncv-program "rncv-xml"
  "The program that judges documents."
  :type 'string)

(defvar-local rncv-schema nil
  "The schema of the document in this buffer, in the compact syntax.")
;;;###autoload
(put 'rncv-schema 'safe-local-variable #'stringp)

(add-to-list 'compilation-error-regexp-alist-alist
             '(rncv "^\\(.+?\\):\\([0-9]+\\):\\([0-9]+\\): \\(?:\\(note:\\|hint:\\)\\|.\\)" 1 2 3 (nil . 4)))

(define-compilation-mode rncv-mode "rncv"
  "What rncv-xml tells of a document."
  (setq-local compilation-error-regexp-alist '(rncv))
  (setq-local compilation-first-column 1)
  ;; columns are characters, however wide a tab is
  (setq-local compilation-error-screen-columns nil))

;;;###autoload
(defun rncv-validate (schema)
  "Save the document in this buffer, and judge it by SCHEMA."
  (interactive
   (list (read-file-name "Schema: " nil rncv-schema t rncv-schema)))
  (unless buffer-file-name
    (user-error "This buffer has no file"))
  (setq rncv-schema (expand-file-name schema))
  (save-buffer)
  (compilation-start
   (mapconcat #'shell-quote-argument
              (list rncv-program "--color" "never" rncv-schema "--" buffer-file-name) " ")
   #'rncv-mode))

(provide 'rncv)
;;; rncv.el ends here
