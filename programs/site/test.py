#!/usr/bin/env python3
"""Tests of the site:   programs/site/test.py

The pages of the clauses are compared with docs/use/CLAUSES.md. Where mkdocs is installed, the site is built, and each link in it has to lead somewhere.
Where a browser is installed too (chromium, or firefox), it takes a picture of three pages. What is not installed is reported, and what wants it is skipped.
"""
import contextlib
import functools
import html.parser
import http.server
import json
import os
import pathlib
import re
import shutil
import struct
import subprocess
import sys
import tempfile
import threading
import unittest
import urllib.parse
import zlib

HERE = pathlib.Path(__file__).resolve().parent
TOP = HERE.parents[1]
PICTURED = ("index.html", "use/XML.html", "clause/S24.html")
BROWSERS = ("chromium", "chromium-browser", "google-chrome", "firefox-esr", "firefox")
WIDTH, HEIGHT = 1200, 900


class Links(html.parser.HTMLParser):
    """What a page of HTML refers to, and the places in it."""

    def __init__(self, text):
        super().__init__()
        self.targets, self.places = [], set()
        self.feed(text)

    def handle_starttag(self, tag, attrs):
        for name, value in attrs:
            if name in ("href", "src") and value:
                self.targets.append(value)
            elif name in ("id", "name") and value:
                self.places.add(value)


def lost_links(folder):
    """The links of a folder of HTML that lead nowhere."""
    pages = {path: Links(path.read_text(encoding="utf-8")) for path in folder.rglob("*.html")}
    for path, links in pages.items():
        for target in links.targets:
            parts = urllib.parse.urlsplit(target)
            if parts.scheme or parts.netloc:
                continue
            to = pathlib.Path(os.path.normpath(path.parent / urllib.parse.unquote(parts.path))) if parts.path else path
            to = to / "index.html" if to.is_dir() else to
            place = urllib.parse.unquote(parts.fragment)
            if not to.exists() or place and to in pages and place not in pages[to].places:
                yield f"{path.relative_to(folder)}: {target}"


def colours_of(picture):
    """The width and the height of a picture in PNG, and how many different bytes its lines have."""
    data = picture.read_bytes()
    width, height = struct.unpack(">II", data[16:24])
    at, packed = 8, b""
    while at < len(data):
        length, kind = struct.unpack(">I4s", data[at:at + 8])
        packed += data[at + 8:at + 8 + length] if kind == b"IDAT" else b""
        at += 12 + length
    return width, height, len(set(zlib.decompress(packed)))


# A page that shows what a search finds, and then says so to the server. It has not loaded until the server has answered about the picture.
PROBE = b"""<iframe src="/search.html?q=attributes"></iframe><div id="found"></div><img src="/slow.png"><script>
const looking = setInterval(() => {
    found.innerHTML = frames[0].document.getElementById("mkdocs-search-results").innerHTML;
    if (found.querySelector("a")) { clearInterval(looking); fetch("/found"); }
}, 100);
</script>"""


class Server(http.server.SimpleHTTPRequestHandler):
    """Serves a folder, and the page PROBE, whose picture comes once the page has found something, or after two minutes."""
    found = threading.Event()

    def do_GET(self):
        if self.path == "/probe.html":
            self.send_response(200)
            self.send_header("Content-Type", "text/html")
            self.end_headers()
            self.wfile.write(PROBE)
            return
        if self.path == "/found":
            self.found.set()
        if self.path == "/slow.png":
            self.found.wait(120)
        super().do_GET()

    def log_message(self, *_):
        """Says nothing of a request."""


@contextlib.contextmanager
def served(folder):
    """The address at which a folder is served."""
    with http.server.ThreadingHTTPServer(("127.0.0.1", 0), functools.partial(Server, directory=str(folder))) as server:
        threading.Thread(target=server.serve_forever, daemon=True).start()
        yield f"http://127.0.0.1:{server.server_address[1]}"
        server.shutdown()


def browser():
    """The path of a browser, if one is installed."""
    return next((path for path in map(shutil.which, BROWSERS) if path), None)


def words_for(path, picture, address, room):
    """The command by which a browser takes a picture of a page."""
    if "firefox" in os.path.basename(path):
        return [path, "--headless", "--no-remote", "--profile", str(room), "--screenshot", str(picture), f"--window-size={WIDTH},{HEIGHT}", address]
    return [path, "--headless", "--no-sandbox", "--disable-gpu", "--disable-dev-shm-usage", "--hide-scrollbars", f"--user-data-dir={room}",
            f"--window-size={WIDTH},{HEIGHT}", f"--screenshot={picture}", address]


class Sources(unittest.TestCase):
    """What pages.py writes."""

    @classmethod
    def setUpClass(cls):
        room = tempfile.TemporaryDirectory()
        cls.addClassCleanup(room.cleanup)
        cls.folder = pathlib.Path(room.name)
        subprocess.run([sys.executable, "-B", HERE / "pages.py", cls.folder, cls.folder / "site"], check=True)

    def test_each_clause_has_its_page(self):
        page = (TOP / "docs/use/CLAUSES.md").read_text(encoding="utf-8")
        found = re.findall(r"^### ([SP]\d+): (.*)$", page, re.M)
        self.assertEqual(len(found), 40)
        for clause, title in found:
            text = (self.folder / f"docs/clause/{clause}.md").read_text(encoding="utf-8")
            part = page.split(f"### {clause}: ")[1].split("\n### ")[0]
            self.assertTrue(text.startswith(f"# {clause}: {title}\n\nFor whoever gets `{'refused' if clause[0] == 'S' else 'malformed'} {clause}`"), clause)
            for kind in ("broken", "repair"):
                example = part.split(f"```{kind}\n")[1].split("```")[0]
                self.assertIn(f"```text\n{example}```", text, clause)
            self.assertIn("\nBroken if: ", text)

    def test_each_page_is_there(self):
        wanted = {path.relative_to(TOP / "docs").as_posix() for path in (TOP / "docs").rglob("*.md")} | {"readme.md", "changelog.md"}
        found = {path.relative_to(self.folder / "docs").as_posix() for path in (self.folder / "docs").rglob("*.md")}
        self.assertEqual({name for name in found if not name.startswith("clause/")}, wanted)

    def test_that_fences_have_one_word(self):
        for path in (self.folder / "docs").rglob("*.md"):
            for fence in re.findall(r"^```(.*)$", path.read_text(encoding="utf-8"), re.M):
                self.assertLessEqual(len(fence.split()), 1, path)


@unittest.skipUnless(shutil.which("mkdocs"), "mkdocs is not installed (Debian: apt-get install mkdocs)")
class Site(unittest.TestCase):
    """The site as build.sh writes it."""

    @classmethod
    def setUpClass(cls):
        room = tempfile.TemporaryDirectory()
        cls.addClassCleanup(room.cleanup)
        cls.room = pathlib.Path(room.name)
        cls.folder = cls.room / "site"
        subprocess.run([HERE / "build.sh", cls.folder], check=True, stdout=subprocess.DEVNULL)

    def test_links(self):
        self.assertEqual(list(lost_links(self.folder)), [])

    def test_pages(self):
        for page in (*PICTURED, "use/CLAUSES.html", "clause/S1.html", "clause/P13.html", "proof/PROVED.html", "readme.html"):
            self.assertTrue((self.folder / page).is_file(), page)
        self.assertIn("S24.html", (self.folder / "use/CLAUSES.html").read_text(encoding="utf-8"))

    def test_search(self):
        found = json.loads((self.folder / "search/search_index.json").read_text(encoding="utf-8"))["docs"]
        self.assertTrue(any(entry["location"].startswith("clause/S24.html") and "two attributes" in entry["title"] for entry in found))

    def test_that_search_finds_a_clause(self):
        path = browser()
        if path is None or "firefox" in os.path.basename(path):
            self.skipTest("no chromium is installed: search is not tried")
        with served(self.folder) as address:
            words = [word for word in words_for(path, None, f"{address}/probe.html", self.room / "searching") if not word.startswith("--screenshot")]
            run = subprocess.run([*words, "--dump-dom"], capture_output=True, text=True, timeout=300, check=False, env={**os.environ, "HOME": str(self.room)})
        self.assertIn("clause/S24.html", run.stdout, run.stderr[-2000:])

    def test_pictures(self):
        path = browser()
        if path is None:
            self.skipTest("no browser is installed: no picture is taken")
        for number, page in enumerate(PICTURED):
            picture = self.room / f"{number}.png"
            words = words_for(path, picture, (self.folder / page).as_uri(), self.room / f"profile{number}")
            (self.room / f"profile{number}").mkdir()
            run = subprocess.run(words, capture_output=True, text=True, timeout=300, check=False, env={**os.environ, "HOME": str(self.room)})
            self.assertTrue(picture.exists(), run.stderr[-2000:])
            width, height, colours = colours_of(picture)
            self.assertEqual((width, height), (WIDTH, HEIGHT), page)
            self.assertGreater(colours, 40, f"{page}: the picture has next to nothing on it")


if __name__ == "__main__":
    unittest.main(verbosity=1)
