#!/usr/bin/env python3
"""Compares the outlines of real C files with those of universal-ctags.

    python3 tools/outlines/compare.py [-I DIR].. [-D NAME[=TEXT]].. FILE..

The server is `crates/clsd/out/clsd` of this checkout, or $CLSD. It gets the folders and macros that are named, then gcc's own
folders of headers. For each file a line says how many names the server lists at file scope, how many ctags does, how long the
first outline and a later one took, and below it each name that just one of the two has, with its kind.

ctags doesn't preprocess: it lists what stands in groups that conditions leave out, and doesn't see what macros declare.
"""
import json
import os
import subprocess
import sys
import time
from pathlib import Path

ROOT = Path(__file__).resolve().parents[2]
PROGRAM = os.environ.get("CLSD", str(ROOT / "crates/clsd/out/clsd"))

# LSP 3.17's numbers of kinds, and the letters that ctags has for the same
KINDS = {12: "function", 13: "object", 26: "typedef", 23: "struct or union", 10: "enum"}
LETTERS = {"f": 12, "p": 12, "v": 13, "x": 13, "t": 26, "s": 23, "u": 23, "g": 10}


def frame(value):
    body = json.dumps(value).encode()
    return b"Content-Length: %d\r\n\r\n" % len(body) + body


class Session:
    """A running server, to which one message is sent at a time."""

    def __init__(self, words):
        self.server = subprocess.Popen([PROGRAM, "serve", *words], stdin=subprocess.PIPE, stdout=subprocess.PIPE)
        self.number = 0

    def tell(self, method, params):
        self.server.stdin.write(frame({"jsonrpc": "2.0", "method": method, "params": params}))
        self.server.stdin.flush()

    def ask(self, method, params):
        self.number += 1
        request = {"jsonrpc": "2.0", "id": self.number, "method": method, "params": params}
        self.server.stdin.write(frame(request))
        self.server.stdin.flush()
        head = self.server.stdout.readline()
        self.server.stdout.readline()
        reply = json.loads(self.server.stdout.read(int(head.split(b":")[1])))
        return reply["result"]

    def close(self):
        self.ask("shutdown", None)
        self.tell("exit", None)
        return self.server.wait()


def folders_of_gcc():
    shown = subprocess.run(["gcc", "-E", "-v", "-x", "c", "/dev/null"], capture_output=True, text=True).stderr
    lines = shown.split("#include <...> search starts here:")[1].split("End of search list.")[0]
    return [os.path.realpath(line.strip()) for line in lines.strip().splitlines()]


def outline(words, path):
    """The names that the server lists, and how long the first outline and the second took."""
    session = Session(words)
    uri = path.as_uri()
    session.ask("initialize", {"processId": None, "rootUri": None, "capabilities": {}})
    document = {"uri": uri, "languageId": "c", "version": 1, "text": path.read_text(errors="replace")}
    session.tell("textDocument/didOpen", {"textDocument": document})
    times = []
    for _ in range(2):
        begun = time.monotonic()
        symbols = session.ask("textDocument/documentSymbol", {"textDocument": {"uri": uri}})
        times.append(time.monotonic() - begun)
    session.close()
    return {(symbol["name"], symbol["kind"]) for symbol in symbols}, times


def tags(path):
    shown = subprocess.run(
        ["ctags", "--output-format=json", "--fields=+S", "--c-kinds=fpvxtsug", "--language-force=C", "-o", "-", str(path)],
        capture_output=True, text=True, check=True).stdout
    found = set()
    for line in shown.splitlines():
        tag = json.loads(line)
        letter = {"function": "f", "prototype": "p", "variable": "v", "externvar": "x", "typedef": "t", "struct": "s",
                  "union": "u", "enum": "g"}[tag["kind"]]
        if not tag["name"].startswith("__anon"):
            found.add((tag["name"], LETTERS[letter]))
    return found


def named(pairs):
    return ", ".join(f"{name} ({KINDS.get(kind, kind)})" for name, kind in sorted(pairs))


def main(words):
    options, files = [], []
    rest = iter(words)
    for word in rest:
        if word == "-I":
            options += [word, str(Path(next(rest)).resolve())]
        elif word == "-D":
            options += [word, next(rest)]
        else:
            files.append(Path(word).resolve())
    options += [word for folder in folders_of_gcc() for word in ("-I", folder)]
    for path in files:
        ours, times = outline(options, path)
        theirs = tags(path)
        print(f"{path.name}: {len(ours)} names, ctags {len(theirs)}; first {times[0]:.2f} s, later {times[1]:.3f} s")
        if ours - theirs:
            print(f"  ours alone: {named(ours - theirs)}")
        if theirs - ours:
            print(f"  theirs alone: {named(theirs - ours)}")


if __name__ == "__main__":
    main(sys.argv[1:])
