#!/usr/bin/env python3
"""try.py [FOLDER]: opens the page that web/make.sh made in FOLDER (web/out) in a headless Chromium, and compares what
it shows with what the program answers: the texts of examples/ and their plain ones, some of which are refused, `let`s
that tell their types, a fault, what is no module, and layouts.

Where there is no Chromium, or no page, it says so, and its status is 0. Of the browser's own verdict on each text it
prints what there is: nothing is asked of that.
"""

import functools
import html
import http.server
import json
import re
import shutil
import subprocess
import sys
import tempfile
import threading
import urllib.parse
from pathlib import Path

HERE = Path(__file__).resolve().parent
TOP = HERE.parent
BROWSERS = ("chromium", "chromium-browser", "google-chrome", "chromium-headless-shell")
WORDS = [
    "--headless", "--no-sandbox", "--disable-extensions", "--enable-unsafe-webgpu", "--use-webgpu-adapter=swiftshader",
    "--virtual-time-budget=60000", "--timeout=60000",
]


def main():
    folder = Path(sys.argv[1] if len(sys.argv) > 1 else HERE / "out").resolve()
    browser = next(filter(None, map(shutil.which, BROWSERS)), None)
    if not browser or not (folder / "yorwethul.wasm").is_file():
        print("skipped:", "no page has been made: web/make.sh makes one" if browser else "no Chromium")
        return
    handler = functools.partial(Quiet, directory=folder)
    with http.server.ThreadingHTTPServer(("127.0.0.1", 0), handler) as server:
        threading.Thread(target=server.serve_forever, daemon=True).start()
        faults = [fault for words, wanted in questions() for fault in ask(browser, server.server_port, words, wanted)]
        server.shutdown()
    for fault in faults:
        print("FAILED:", fault)
    sys.exit(1 if faults else 0)


class Quiet(http.server.SimpleHTTPRequestHandler):
    """A server of files that prints nothing."""

    extensions_map = {**http.server.SimpleHTTPRequestHandler.extensions_map, ".wasm": "application/wasm"}

    def log_message(self, *_):
        pass


def questions():
    """What the page is asked, with the status and the text that it must show."""
    examples = [example.stem for example in sorted((TOP / "examples").glob("*.json"))]
    lines, answers = ((TOP / "crates/yorwethul" / name).read_text().splitlines() for name in ("stdin", "stdout"))
    answers = list(map(json.loads, answers))
    # each example has two lines, and the second asks for its plain text: without the boxes that are checked at first
    for example, standard, plain in zip(examples, answers[0::2], answers[1::2]):
        yield {"example": example}, shown_of(standard)
        yield {"example": example, "portable": "no", "floats": "no"}, shown_of(plain)
    for line, answer in zip(lines, answers):
        if '"explicit_types":true' in line:
            yield {"json": line, "explicit": "yes"}, shown_of(answer)
    struct = {"name": "One", "inner": {"Struct": {"span": 4, "members": [{"name": "a", "ty": 0, "offset": 0}]}}}
    types = [{"inner": {"Scalar": {"kind": "Uint", "width": 4}}}, struct]
    known = json.dumps({"module": {"types": types}, "info": {}})
    yield {"json": known, "call": "layout"}, ("done", "struct One: align 4, size 4\n    a: u32, offset 0, align 4, size 4\n")
    yield {"json": '{"module": {}, "info": {"functions": [[0]]}}', "call": "check"}, ("not accepted", None)
    yield {"json": "{\"info\": {}}"}, ("no module", "module: missing")
    yield {"json": "[" * 200}, ("too deep", "lists and objects nest more than 127 deep")


def shown_of(answer):
    """The status and the text by which the page shows what the program answers."""
    label = ', in "{function}"'.format(**answer) if "function" in answer else ""
    root = ": {root}".format(**answer) if "root" in answer else ""
    return ("refused", "{refused}: {position}".format(**answer) + label + root) if "refused" in answer else ("done", answer["text"])


def ask(browser, port, words, wanted):
    """Where the page shows something else."""
    title = ", ".join(f"{name} {value[:60]}" for name, value in words.items())
    address = f"http://127.0.0.1:{port}/?{urllib.parse.urlencode(words)}"
    with tempfile.TemporaryDirectory() as profile:
        command = [browser, *WORDS, f"--user-data-dir={profile}", "--dump-dom", address]
        try:
            page = subprocess.run(command, capture_output=True, text=True, timeout=180).stdout
        except subprocess.TimeoutExpired:
            return [f"{title}: no answer in 180 s"]
    told = re.findall(r'<(?:pre|b) id="(\w+)"[^>]*>(.*?)</(?:pre|b)>', page, re.DOTALL)
    shown = {name: html.unescape(text) for name, text in told}
    status, text = wanted
    if shown.get("status") != status or (text is not None and shown.get("text") != text):
        return [f"{title}: {shown}, wanted {wanted}"]
    print(f"passed: {title}: {status}; the browser {shown.get('verdict')}")
    return []


main()
