#!/usr/bin/env python3
"""Measures how long the outline of a large text takes the built server, and what memory, beside gcc and clang.

    python3 tools/figures/measure.py [--instructions] KIND COUNT..

KIND is one of the texts below, and COUNT how many of its parts stand one behind the other. The server is `crates/clsd/out/clsd`
of this checkout, or $CLSD. For each count a line for each program says the seconds of processor time and the peak memory, or with
--instructions how many instructions valgrind counts. The compilers run with -fsyntax-only.
"""
import json
import os
import re
import subprocess
import sys
import tempfile
from pathlib import Path

ROOT = Path(__file__).resolve().parents[2]
PROGRAM = os.environ.get("CLSD", str(ROOT / "crates/clsd/out/clsd"))

BODY = """int f%d(int a, int *b, struct point p) {
    int i, sum = 0;
    for (i = 0; i < a; i++) {
        if (b[i] > 2 && p.x != i) sum += b[i] * (p.y - 1);
        else sum -= g(i, &b[i], p.x ? a : i);
    }
    while (sum > 100) { sum /= 2; a--; }
    switch (sum & 7) { case 0: return a; case 1: break; default: sum++; }
    return sum ? sum : -a;
}
"""

# what stands before the parts, a part, and what stands behind them; a part may show its number
TEXTS = {
    "bodies": ("struct point { int x, y; };\nint g(int, int *, int);\n", BODY, ""),
    "functions": ("", "int f%d(int a, int b) {\n    int c = a * b;\n    return c + a;\n}\n", ""),
    "declarations": ("", "int a%d;\n", ""),
    "typedefs": ("void f(void) {\n", "    typedef int T%d; T%d x%d;\n", "}\n"),
    "changes": ("void f(void) {\n    typedef int T;\n", "    { T a; int T = 1, b%d = T * 2; }\n", "}\n"),
    "structures": ("", "struct S { int a; }\n", "x +;\nint c;\n"),
    "enumerations": ("typedef int T;\n", "enum { T } \n", "x +;\nint c;\n"),
}


def text_of(kind, count):
    before, part, behind = TEXTS[kind]
    holes = part.count("%d")
    return before + "".join(part % ((number,) * holes) for number in range(count)) + behind


def frame(value):
    body = json.dumps(value).encode()
    return b"Content-Length: %d\r\n\r\n" % len(body) + body


def session_of(text):
    document = {"uri": "file:///t.c", "languageId": "c", "version": 1, "text": text}
    messages = [
        {"id": 1, "method": "initialize", "params": {"capabilities": {}}},
        {"method": "initialized", "params": {}},
        {"method": "textDocument/didOpen", "params": {"textDocument": document}},
        {"id": 2, "method": "textDocument/documentSymbol", "params": {"textDocument": {"uri": document["uri"]}}},
        {"id": 3, "method": "shutdown"},
        {"method": "exit"},
    ]
    return b"".join(frame({"jsonrpc": "2.0", **message}) for message in messages)


def run(words, given):
    """Runs a program on a file as its standard input; returns seconds and megabytes."""
    with open(given, "rb") as it:
        started = subprocess.Popen(words, stdin=it, stdout=subprocess.DEVNULL, stderr=subprocess.DEVNULL)
    used = os.wait4(started.pid, 0)[2]
    return used.ru_utime + used.ru_stime, used.ru_maxrss / 1024


def instructions(words, given):
    with tempfile.TemporaryDirectory() as folder, open(given, "rb") as it:
        all_words = ["valgrind", "--tool=callgrind", f"--callgrind-out-file={folder}/out", *words]
        told = subprocess.run(all_words, stdin=it, capture_output=True, text=True).stderr
    return int(re.search(r"Collected : (\d+)", told).group(1))


def main():
    words = sys.argv[1:]
    counts_instructions = "--instructions" in words
    kind, *counts = [word for word in words if word != "--instructions"]
    if not Path(PROGRAM).exists():
        sys.exit(f"no program at {PROGRAM}: ./clsd build makes it")
    for count in map(int, counts):
        text = text_of(kind, count)
        with tempfile.TemporaryDirectory() as folder:
            source, session = f"{folder}/t.c", f"{folder}/session"
            Path(source).write_text(text)
            Path(session).write_bytes(session_of(text))
            cc1 = subprocess.run(["gcc", "-print-prog-name=cc1"], capture_output=True, text=True).stdout.strip()
            programs = {
                "clsd": [PROGRAM, "serve", "--workers=0"],
                "gcc": [cc1, "-quiet", "-fsyntax-only", source],
                "clang": ["clang", "-cc1", "-fsyntax-only", source],
            }
            for name, program in programs.items():
                if counts_instructions:
                    told = f"{instructions(program, session) / 1e6:,.0f} million instructions"
                else:
                    told = "%.2f s, %.0f MB" % run(program, session)
                print(f"{kind} {count:,} ({len(text) / 1e6:.2f} MB): {name} {told}", flush=True)


if __name__ == "__main__":
    main()
