"""Tests of messages: their framing, the answers, and the end of the server."""
import json
import os
import random
import shutil
import subprocess
import sys
import time
import unittest

from client import SCHEMA, SERVER, WithServer, framed


class Ends(WithServer):
    """The arguments of the program, and its exit statuses."""

    def test_words(self):
        for words, status, shown in ((["--help"], 0, "RNCV_LIBRARY"), (["--version"], 0, "rncv-lsp 0."), (["--other"], 2, ""), (["--datatypes", "all"], 2, ""),
                                     (["--datatypes"], 2, "")):
            run = subprocess.run([sys.executable, str(SERVER), *words], capture_output=True, text=True, timeout=120, check=False)
            self.assertEqual(run.returncode, status)
            self.assertIn(shown, run.stdout)

    def test_a_fault_of_the_words_is_one_line(self):
        run = subprocess.run([sys.executable, str(SERVER), "--a\n\x1b\u2028b"], capture_output=True, text=True, timeout=120, check=False)
        self.assertEqual(run.stderr.splitlines()[-1], "rncv-lsp: error: unrecognized arguments: --a\\n\\x1b\\u2028b")

    def test_a_copy_without_the_repository(self):
        shutil.copytree(SERVER.parent, self.folder / "programs/lsp")
        run = subprocess.run([sys.executable, str(self.folder / "programs/lsp/rncv-lsp")], input=b"", capture_output=True, timeout=120, check=False)
        self.assertEqual((run.returncode, run.stderr.count(b"\n")), (2, 1))

    def test_an_interrupt_while_it_begins(self):
        self.write("rncv.py", "raise KeyboardInterrupt")
        run = subprocess.run([sys.executable, str(SERVER)], input=b"", capture_output=True, timeout=120, check=False,
                             env={**os.environ, "PYTHONPATH": str(self.folder)})
        self.assertEqual((run.returncode, run.stderr), (130, b""))

    def test_shutdown_and_exit(self):
        self.assertIsNone(self.client.request("shutdown")["result"])
        self.assertEqual(self.client.request("shutdown")["error"]["code"], -32600)
        self.client.notify("exit")
        self.assertEqual(self.client.ended(), 0)

    def test_exit_without_shutdown(self):
        self.client.notify("exit")
        self.assertEqual(self.client.ended(), 1)

    def test_end_of_the_input(self):
        self.client.process.stdin.close()
        self.assertEqual(self.client.ended(), 1)

    def test_end_of_the_input_after_shutdown(self):
        self.client.request("shutdown")
        self.client.process.stdin.close()
        self.assertEqual(self.client.ended(), 0)

    def test_the_input_ends_in_a_message(self):
        for data in (b'Content-Length: 100\r\n\r\n{"js', b"Content-Length: 1000000000\r\n\r\n{}", b"Content-Length: 7\r\n", b"\xff" * 200_000, b"\r\n\r\n"):
            client = self.started()
            client.write(data)
            client.process.stdin.close()
            self.assertEqual(client.ended(), 1)
            self.assertEqual(client.process.stderr.read(), b"", data)

    def test_bytes_at_random(self):
        chosen = random.Random(7)
        parts = [framed({"jsonrpc": "2.0", "id": 1, "method": "x"}), b"Content-Length: ", b"Content-Length: 9\r\n\r\n", b"99999999999", b"\r\n",
                 b"\r\n\r\n", b"{", b"\xff", b"\0", b'"id":NaN', b"[[[[", b":", b"content-length:3\n\n{}]"]
        for _ in range(8):
            data = b"".join(chosen.choice(parts) for _ in range(chosen.randrange(40)))
            run = subprocess.run([sys.executable, str(SERVER)], input=data, capture_output=True, timeout=120, check=False)
            self.assertEqual((run.returncode, run.stderr), (1, b""), data)

    @unittest.skipUnless(os.path.exists("/dev/full"), "no /dev/full here")
    def test_output_that_cannot_be_written(self):
        """It is full or closed, and Python holds it back or not."""
        for words, unbuffered in ((words, unbuffered) for words in ("--version", "--help") for unbuffered in ("", "1")):
            for stream, why in ((">/dev/full", "No space left on device"), (">&-", "it is closed")):
                self.assertEqual(self.ended_in_shell(words, stream, unbuffered), (1, "", f"rncv-lsp: standard output: {why}\n"), (words, unbuffered))

    @unittest.skipUnless(os.path.exists("/dev/full"), "no /dev/full here")
    def test_errors_that_cannot_be_written(self):
        for stream, unbuffered in ((stream, unbuffered) for stream in ("2>/dev/full", "2>&-", "2</dev/null") for unbuffered in ("", "1")):
            self.assertEqual(self.ended_in_shell("--other", stream, unbuffered), (2, "", ""), (stream, unbuffered))
            self.assertEqual(self.ended_in_shell("--help", stream, unbuffered)[::2], (0, ""), (stream, unbuffered))

    @staticmethod
    def ended_in_shell(words, stream, unbuffered):
        """The status of the program with these words and a stream, and what it printed."""
        run = subprocess.run(["sh", "-c", f'exec "$@" {stream}', "sh", sys.executable, str(SERVER), words], stdin=subprocess.DEVNULL, capture_output=True,
                             text=True, timeout=120, check=False, env={**os.environ, "PYTHONUNBUFFERED": unbuffered})
        return run.returncode, run.stdout, run.stderr

    @unittest.skipUnless(sys.platform == "linux", "the limit of memory holds on Linux only")
    def test_little_memory(self):
        code = "import resource, runpy, sys; resource.setrlimit(resource.RLIMIT_AS, (200_000_000, 200_000_000)); sys.argv = sys.argv[1:]; "
        data = b"Content-Length: 150000000\r\n\r\n" + b" " * 150_000_000 + framed({"id": 1, "method": "x"})
        run = subprocess.run([sys.executable, "-c", code + "runpy.run_path(sys.argv[0], run_name='__main__')", str(SERVER)], input=data, capture_output=True,
                             timeout=120, check=False)
        self.assertEqual((run.returncode, run.stderr), (1, b""))
        self.assertIn(b'"message":"out of memory"', run.stdout)
        self.assertIn(b'"id":1,', run.stdout)

    def test_shutdown_and_exit_in_a_batch(self):
        self.client.write(framed([{"jsonrpc": "2.0", "id": "s", "method": "shutdown"}, {"jsonrpc": "2.0", "method": "exit"}]))
        self.assertEqual(self.client.next_answer(), [{"jsonrpc": "2.0", "id": "s", "result": None}])
        self.assertEqual(self.client.ended(), 0)

    def test_shutdown_while_a_large_document_is_judged(self):
        self.write("s.rnc", SCHEMA)
        text = "<?xml-model href='s.rnc'?><list>" + "<item at='1'>text</item>\n" * 400_000 + "</list>"
        self.client.open(self.uri("large.xml"), text)
        time.sleep(0.3)
        begin = time.monotonic()
        self.assertEqual(self.client.stop(), 0)
        self.assertLess(time.monotonic() - begin, 20.0)
        self.assertNotIn(self.uri("large.xml"), self.client.versions)


class NotInitialized(WithServer):
    """What comes before `initialize`."""

    def setUp(self):
        self.client = self.started()

    def test_requests_and_notifications(self):
        self.assertEqual(self.client.request("shutdown")["error"]["code"], -32002)
        self.client.open("file:///none/s.rnc", "x")
        self.assertIn("capabilities", self.client.initialize())
        self.assertEqual(self.client.request("initialize", {})["error"]["code"], -32600)
        self.assertEqual(self.client.stop(), 0)
        self.assertEqual(self.client.diagnostics, {})

    def test_odd_parameters(self):
        odd = [None, 5, "x", [], {}, [[]], {"a": []}, "file:///%00", "\ud800"]
        for value in odd:
            client = self.started()
            folders = [value, {"uri": value}]
            capabilities = {"general": {"positionEncodings": [value, "utf-8"]}, "workspace": value}
            answer = client.request("initialize", {"processId": value, "rootUri": value, "rootPath": value, "workspaceFolders": folders,
                                                   "initializationOptions": value, "capabilities": capabilities})
            self.assertEqual(answer["result"]["capabilities"]["positionEncoding"], "utf-8", value)
            client.notify("workspace/didChangeConfiguration", settings={"rncv": {"schemas": value, "clausesUrl": value}})
            client.notify("workspace/didChangeWorkspaceFolders", event={"added": folders, "removed": value})
            client.open("file:///none/a.xml", "<a>", language=value, version=value)
            client.until(lambda message: message.get("method") == "textDocument/publishDiagnostics")
            self.assertEqual([each["code"] for each in client.diagnostics["file:///none/a.xml"]], ["malformed"])
            self.assertEqual(client.stop(), 0)
            self.assertEqual([message for message in client.other if "internal error" in str(message)], [])

    def test_exit(self):
        self.client.notify("exit")
        self.assertEqual(self.client.ended(), 1)


class Messages(WithServer):
    """Odd messages, and bytes that are not messages."""

    SHARED = True

    def error(self, data):
        """Sends bytes, and returns the code of the error answer without an identity."""
        self.client.write(data)
        answer = self.client.answer(None)
        return answer["error"]["code"]

    def test_capabilities(self):
        self.assertEqual(self.initialized["capabilities"]["positionEncoding"], "utf-16")
        self.assertEqual(self.initialized["capabilities"]["textDocumentSync"]["change"], 2)
        self.assertEqual(self.initialized["serverInfo"]["name"], "rncv-lsp")

    def test_unknown_methods(self):
        self.assertEqual(self.client.request("textDocument/moniker", {})["error"]["code"], -32601)
        self.client.notify("$/cancelRequest", id=1)
        self.client.notify("some/thing")
        self.assertEqual(self.client.request("textDocument/moniker", {})["error"]["code"], -32601)
        self.assertEqual([message for message in self.client.other if "method" in message], [])

    def test_odd_pieces(self):
        data = framed({"jsonrpc": "2.0", "id": "é\U0001F600", "method": "é"})
        for size in (1, 3, 7):
            for begin in range(0, len(data), size):
                self.client.write(data[begin:begin + size])
            self.assertEqual(self.client.answer("é\U0001F600")["error"]["code"], -32601)

    def test_many_at_once(self):
        self.client.write(b"".join(framed({"jsonrpc": "2.0", "id": number, "method": "x"}) for number in range(100, 150)))
        for number in range(100, 150):
            self.assertEqual(self.client.next_answer()["id"], number)

    def test_headers(self):
        body = json.dumps({"jsonrpc": "2.0", "id": 9, "method": "x"}).encode()
        for head in (b"content-length:%d\r\nContent-Type: application/vscode-jsonrpc; charset=utf-8\r\n\r\n", b"X: y\nCONTENT-LENGTH : %d\n\n",
                     b"\r\n\r\nContent-Length: %d\r\n\r\n"):
            self.client.write(head % len(body) + body)
            self.assertEqual(self.client.answer(9)["error"]["code"], -32601)

    def test_garbage(self):
        self.assertEqual(self.error(b"garbage\x00\xff\r\n\r\n"), -32700)
        self.assertEqual(self.error(b"Content-Length: much\r\n"), -32700)
        self.assertEqual(self.error(b"Content-Length: -5\r\n"), -32700)
        self.assertEqual(self.error(framed("{")), -32700)
        self.assertEqual(self.error(framed("[" * 200_000)), -32700)
        self.assertIn(self.error(framed("1" * 20_000)), (-32700, -32600))
        self.assertEqual(self.error(b"Content-Length: 2\r\n\r\n\xff\xff"), -32700)
        self.assertEqual(self.error(framed("")), -32700)
        for value in (1, None, '"text"', [], {}, {"id": 1}, {"method": 5, "id": 1}, {"method": "x", "id": {}}, {"method": "x", "id": True}):
            self.assertEqual(self.error(framed(value)), -32600)
        self.assertEqual(self.client.request("x")["error"]["code"], -32601)

    def test_numbers_that_json_does_not_have(self):
        for words in ("NaN", "Infinity", "-Infinity", "1e999", "-1e999", "1" * 400, "-" + "1" * 400, "01", "1.", "0x1", "\\u0031"):
            self.client.write(framed('{"jsonrpc": "2.0", "method": "x", "id": %s}' % words))
            answer = self.client.next_answer()
            self.assertEqual((answer["id"], answer["error"]["code"]), (None, -32700), words)
        self.assertEqual(self.error(framed('{"jsonrpc": "2.0", "method": "x", "params": [NaN]}')), -32700)

    def test_large_identities(self):
        for identity in (10**299, -10**298, 1e300, 0.5, "x" * 3_000_000, "\0\ud800\U0001F600"):
            self.client.write(framed({"jsonrpc": "2.0", "id": identity, "method": "x"}))
            answer = self.client.next_answer()
            self.assertEqual((answer["id"] == identity, answer["error"]["code"]), (True, -32601), str(identity)[:40])

    def test_lengths_that_lie(self):
        ask = b'{"jsonrpc": "2.0", "id": 9, "method": "x"}'
        for head in (b"Content-Length: 5\r\n\r\n", b"Content-Length: 45\r\n\r\n", b"Content-Length: 52\r\n\r\n", b"Content-Length: 1\r\n\r\n" + b"x" * 70_000,
                     b"Content-Length: 0\r\n\r\n", b"Content-Length: 999999999999\r\n\r\nx\r\n\r\ny\r\n\r\n", b"Content-Length: -1\r\n\r\n",
                     b"Content-Length:\r\n\r\n", b"Content-Length: 5 5\r\n\r\n", b"Content-Length: 9999999999999999999999\r\n\r\n", b"\r\n\xff\r\n\r\n"):
            self.client.write(head + ask)
            self.client.write(framed({"jsonrpc": "2.0", "id": "lost", "method": "x"}) + framed({"jsonrpc": "2.0", "id": "last", "method": "x"}))
            answers = [self.client.next_answer()]
            while answers[-1]["id"] != "last":
                answers.append(self.client.next_answer())
            reported = [(answer["id"], answer["error"]["code"]) for answer in answers if answer["id"] != "lost"]
            self.assertEqual(reported, [(None, -32700), ("last", -32601)], head[:60])

    def test_a_header_in_a_message(self):
        uri = self.uri("s.rnc")
        self.client.open(uri, "# Content-Length: 5\r\n\r\n# Content-Length: 7\nelement a { text }")
        self.assertEqual(self.client.found(uri), [])

    def test_batch(self):
        ask = {"jsonrpc": "2.0", "id": "b", "method": "x"}
        self.client.write(framed([ask, {"jsonrpc": "2.0", "method": "y"}, 5, {**ask, "id": 1.5}]))
        answers = self.client.next_answer()
        self.assertEqual([(answer["id"], answer["error"]["code"]) for answer in answers], [("b", -32601), (None, -32600), (1.5, -32601)])

    def test_bad_parameters(self):
        bad = [None, [], {}, {"textDocument": 5}, {"textDocument": {"uri": 1}}, {"textDocument": {"uri": "file:///x.rnc", "version": 1}}]
        methods = ["textDocument/didOpen", "textDocument/didChange", "textDocument/didClose"]
        for method in methods:
            for params in bad[:-1]:
                self.client.write(framed({"jsonrpc": "2.0", "method": method, "params": params}))
        self.client.write(framed({"jsonrpc": "2.0", "method": "textDocument/didOpen", "params": bad[-1]}))
        self.client.open(self.uri("s.rnc"), SCHEMA)
        self.assertEqual(self.client.found(self.uri("s.rnc")), [])
        for change in (5, {}, {"text": 5}, {"text": "x", "range": 5}, {"text": "x", "range": {"start": {}, "end": {}}},
                       {"text": "x", "range": {"start": {"line": "a", "character": 0}, "end": {"line": 0, "character": 0}}}):
            self.client.notify("textDocument/didChange", textDocument={"uri": self.uri("s.rnc"), "version": 2}, contentChanges=[{"text": ""}, change])
        self.client.change(self.uri("other.rnc"), 1, "x")
        self.client.change(self.uri("s.rnc"), 3, "element")
        self.assertEqual(len(self.client.found(self.uri("s.rnc"), 3)), 1)
        logged = [message for message in self.client.other if message.get("method") == "window/logMessage"]
        self.assertEqual(len(logged), 3 * 5 + 1 + 6 + 1)
        self.assertEqual({message["params"]["type"] for message in logged}, {2})

    def test_answers_that_nobody_waits_for(self):
        for answer in ({"id": 1, "result": 5}, {"id": "x", "result": None}, {"id": None, "error": {"code": 1, "message": ""}}, {"id": [], "result": 1}):
            self.client.write(framed({"jsonrpc": "2.0", **answer}))
        self.assertEqual(self.client.request("x")["error"]["code"], -32601)


if __name__ == "__main__":
    unittest.main()
