"""Tests of the settings for editors in docs/use/EDITORS.md: they run in the editors that are installed."""
import os
import pathlib
import re
import shutil
import subprocess
import tempfile
import unittest

from client import SERVER, TOP

# A file for each kind of document that editors tell apart, with a fault in it, and the code of what is found.
FILES = {
    "a.rnc": ("element a {", "S6"),
    "a.rng": ("<?xml version='1.0'?><a>", "malformed"),
    "a.xml": ("<?xml version='1.0' encoding='EUC-JP'?><a>", "malformed"),
    "a.xhtml": ("<html xmlns='http://www.w3.org/1999/xhtml'><b/></html>", "invalid"),
    "a.xsl": ("<a>", "malformed"),
    "a.xsd": ("<a>", "malformed"),
    "a.svg": ("<svg>", "malformed"),
    "build.xml": ("<project>", "malformed"),
    "book.xml": ("<?xml version='1.0'?>\n<!DOCTYPE book PUBLIC '-//OASIS//DTD DocBook XML V4.5//EN' 'book.dtd'>\n<book>", "malformed note"),
}
PAGE_SCHEMA = 'default namespace = "http://www.w3.org/1999/xhtml"\n## A page\nelement html { element body { empty } }'
NVIM_FILETYPES = {"a.rnc": "rnc", "a.rng": "rng", "a.xml": "xml", "a.xhtml": "xhtml", "a.xsl": "xslt", "a.xsd": "xsd", "a.svg": "svg", "build.xml": "ant",
                  "book.xml": "docbk"}
NVIM_SCRIPT = """
local function codes()
  local found = {}
  for _, each in ipairs(vim.diagnostic.get(0)) do table.insert(found, each.code) end
  table.sort(found)
  return table.concat(found, " ")
end
for name, wanted in pairs({ %s }) do
  vim.cmd("edit " .. name)
  vim.wait(60000, function() return codes() == wanted end, 20)
  io.stdout:write(name .. "|" .. vim.bo.filetype .. "|" .. codes() .. "\\n")
end
vim.cmd("edit a.xml")
vim.api.nvim_buf_set_lines(0, 0, -1, true, { "<a/>" })
vim.wait(60000, function() return codes() == "" end, 20)
vim.api.nvim_buf_set_lines(0, 1, 1, true, { "<!-- \\u{3042} -->", "<b/>" })
-- what was found in the file may come once more, from line 0
local function line() return (vim.diagnostic.get(0)[1] or {}).lnum end
vim.wait(60000, function() return line() == 2 end, 20)
io.stdout:write(line() .. "|" .. #(vim.lsp.get_clients or vim.lsp.get_active_clients)() .. "\\n")
vim.cmd("edit! a.xhtml")
local start = "<html xmlns='http://www.w3.org/1999/xhtml'><"
vim.api.nvim_buf_set_lines(0, 0, -1, true, { start })
vim.wait(60000, function() return codes() == "malformed" end, 20)
local place = { textDocument = vim.lsp.util.make_text_document_params(), position = { line = 0, character = #start } }
for _, answer in pairs(vim.lsp.buf_request_sync(0, "textDocument/completion", place, 60000)) do
  for _, item in ipairs(answer.result.items) do io.stdout:write(item.label .. "|") end
end
io.stdout:write("\\n")
place.position.character = 2
for _, answer in pairs(vim.lsp.buf_request_sync(0, "textDocument/hover", place, 60000)) do
  io.stdout:write(tostring(answer.result.contents.value:find("A page", 1, true) ~= nil) .. "\\n")
end
for _, answer in pairs(vim.lsp.buf_request_sync(0, "textDocument/definition", place, 60000)) do
  io.stdout:write(vim.fn.fnamemodify(vim.uri_to_fname(answer.result[1].uri), ":t") .. "|" .. answer.result[1].range.start.line .. "\\n")
end
vim.cmd("qa!")
"""
EMACS_FILES = {"a.rnc": "rnc-mode", "a.rng": "nxml-mode", "a.xml": "nxml-mode", "a.xhtml": "mhtml-mode", "a.xsl": "nxml-mode", "book.xml": "nxml-mode",
               "a.sgml": "sgml-mode"}
EMACS_SCRIPT = """
(require 'eglot)
(dolist (name '(%s))
  (with-current-buffer (find-file-noselect name)
    (unless (eglot-managed-p) (call-interactively #'eglot))
    (let ((limit (+ (float-time) 60)))
      (while (and (< (float-time) limit) (not (flymake-diagnostics)))
        (accept-process-output nil 0.1)
        (flymake-start)))
    (princ (format "%%s|%%s|%%s\\n" name major-mode (mapconcat #'flymake-diagnostic-text (flymake-diagnostics) " ")))))
(with-current-buffer (find-file-noselect "a.xhtml")
  (let ((inhibit-message t) found hovered defined (limit (+ (float-time) 60)))
    (erase-buffer)
    (insert "<html xmlns='http://www.w3.org/1999/xhtml'><")
    (eglot--signal-textDocument/didChange)
    (while (and (< (float-time) limit) (not found))
      (accept-process-output nil 0.1)
      (setq found (let ((asked (eglot-completion-at-point))) (and asked (all-completions "" (nth 2 asked))))))
    (goto-char 3)
    (setq hovered (jsonrpc-request (eglot--current-server-or-lose) :textDocument/hover (eglot--TextDocumentPositionParams))
          defined (jsonrpc-request (eglot--current-server-or-lose) :textDocument/definition (eglot--TextDocumentPositionParams)))
    (princ (format "completion|%%s\\n" (mapconcat #'substring-no-properties found " ")))
    (princ (format "hover|%%s\\n" (if (string-match-p "A page" (plist-get (plist-get hovered :contents) :value)) "A page" "?")))
    (princ (format "definition|%%s\\n" (file-name-nondirectory (plist-get (elt defined 0) :uri))))))
"""


def settings(name):
    """A file of settings that the page shows."""
    page = (TOP / "docs/use/EDITORS.md").read_text(encoding="utf-8")
    return re.search(rf"^```\w+ {re.escape(name)}\n(.*?)^```$", page, re.M | re.S)[1]


class Editors(unittest.TestCase):
    """A workspace with a link to the server on the path."""

    def setUp(self):
        room = tempfile.TemporaryDirectory()
        self.addCleanup(room.cleanup)
        self.folder = pathlib.Path(room.name).resolve()
        for name in ("bin", "home", "site/.git", "site/schemas"):
            (self.folder / name).mkdir(parents=True)
        (self.folder / "bin/rncv-lsp").symlink_to(SERVER)
        self.write("site/schemas/page.rnc", PAGE_SCHEMA)
        for name, (text, _) in FILES.items():
            self.write(f"site/{name}", text)

    def write(self, name, text):
        """Writes a file."""
        (self.folder / name).write_text(text, encoding="utf-8")

    def lines(self, *words):
        """The lines that an editor prints to its standard output, each in parts."""
        home = str(self.folder / "home")
        environment = {**os.environ, "HOME": home, "PATH": f"{self.folder / 'bin'}{os.pathsep}{os.environ['PATH']}"}
        environment.update({f"XDG_{name}_HOME": home for name in ("CONFIG", "DATA", "STATE", "CACHE")})
        run = subprocess.run(words, cwd=self.folder / "site", env=environment, capture_output=True, text=True, timeout=600, check=False)
        self.assertEqual(run.returncode, 0, run.stderr)
        return [line.split("|") for line in run.stdout.splitlines()], run.stderr

    @unittest.skipUnless(shutil.which("nvim"), "no nvim here")
    def test_neovim(self):
        self.write("init.lua", settings("init.lua"))
        self.write("script.lua", NVIM_SCRIPT % ", ".join(f'["{name}"] = "{code}"' for name, (_, code) in FILES.items()))
        lines, errors = self.lines("nvim", "--headless", "-u", str(self.folder / "init.lua"), "-S", str(self.folder / "script.lua"))
        self.assertEqual(sorted(lines[:-4]), sorted([name, NVIM_FILETYPES[name], code] for name, (_, code) in FILES.items()), errors)
        self.assertEqual(lines[-4:], [["2", "1"], ["/html", "body", ""], ["true"], ["page.rnc", "2"]], errors)

    @unittest.skipUnless(shutil.which("emacs"), "no emacs here")
    def test_emacs(self):
        has = subprocess.run(["emacs", "--batch", "--eval", "(require 'eglot)"], capture_output=True, timeout=600, check=False)
        if has.returncode:
            self.skipTest("no eglot here")
        self.write("site/a.sgml", "<a>")
        self.write("init.el", settings("init.el"))
        self.write("script.el", EMACS_SCRIPT % " ".join(f'"{name}"' for name in EMACS_FILES))
        lines, errors = self.lines("emacs", "--batch", "-l", str(self.folder / "init.el"), "-l", str(self.folder / "script.el"))
        self.assertEqual([(name, set(told.split(" "))) for name, told in lines[-3:]],
                         [("completion", {"/html", "body"}), ("hover", {"A", "page"}), ("definition", {"page.rnc"})], errors)
        found = {name: (mode, sorted(re.findall(r"\[(\w+)\]", reported))) for name, mode, reported in lines[:-3]}
        wanted = {name: (mode, FILES.get(name, ("", "malformed"))[1].split()) for name, mode in EMACS_FILES.items()}
        self.assertEqual(found, wanted, errors)


if __name__ == "__main__":
    unittest.main()
