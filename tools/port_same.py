#!/usr/bin/env python3
"""Says where definitions of specs/ and statements of lemmas differ from those of a commit in the old form by more than spelling.

usage: tools/port_same.py COMMIT     in the repository

By text alone: case, dashes and underscores, parentheses, imports, comments, the endings _of and _lem, and the names that the
library gives otherwise today count for nothing. It prints the first difference of each file of specs/, then each
statement of proofs/*.antt that has no counterpart.
"""
import pathlib
import re
import subprocess
import sys

sys.argv, commit = sys.argv[:1], sys.argv[1]
IDENT = r"[^\s(){}\[\];,.\"λ@«»]+"
OTHER = [("linereading", "lineread"), ("watchreading", "watchread"), ("getd", "getor"), ("reft", "bor"), ("◌", ""), (".refptr", ".ptr"), ("″", "''")]


def now_behind():
    """The one function of port_names.py that is wanted here, without its run."""
    text = (pathlib.Path(__file__).parent / "port_names.py").read_text().split("\ndef main")[0]
    made = {}
    exec(compile(text, "port_names.py", "exec"), made)
    return made["now_behind"]


NOW = now_behind()


def word(m):
    x = m.group(0)
    if not re.search(r"\w", x):
        return x
    x = x.lower().replace("-", "").replace("_", "").strip("·")
    while True:
        y = re.sub(r"(?<=\w\w)(of|lem)$", "", x)
        if y == x:
            return x
        x = y


def plain(t, old):
    t = re.sub(r"--[^\n]*", "", t)
    t = re.sub(r"(?m)^(?:(?:unfoldable|pub) )*use [^{\n;]*(\{[^}]*\})?( as \S+)?$", "", t)
    if old:
        t = NOW(re.sub(r"\s+\.(?=[\w«0-9])", ".", t).replace("′", "'").replace("·", "."))
        t = re.sub(r"the-variants", "TheVariants", t)
    t = re.sub(IDENT, word, re.sub(r"[«»]", "", t))
    t = re.sub(r"[\s()]+", "", t)
    for a, b in OTHER:
        t = t.replace(a, b)
    return t


def statements(t):
    got, lines, i = [], t.split("\n"), 0
    while i < len(lines):
        m = re.match(r"^(\s*)((?:abbrev |pub |unfoldable )*)(" + IDENT + r") :(?: |$)", lines[i])
        i += 1
        if not m:
            continue
        one = [lines[i - 1]]
        while i < len(lines) and lines[i].strip() and len(lines[i]) - len(lines[i].lstrip()) > len(m.group(1)):
            if lines[i].strip().startswith(("unfolding", m.group(3) + " ")):
                break
            one.append(lines[i])
            i += 1
        got.append("\n".join(one))
    return got


def was(path):
    old = str(path).replace("crates/igc_log/", "crates/log/")
    r = subprocess.run(["git", "show", f"{commit}:{old}"], capture_output=True, text=True)
    return None if r.returncode else r.stdout


def main():
    files = differ = laws = 0
    for p in sorted(pathlib.Path("crates").glob("*/specs/**/*.antt")):
        old = was(p)
        if old is None:
            print("new:", p)
            continue
        a, b = plain(old, True), plain(p.read_text(), False)
        files += 1
        if a != b:
            k = next((k for k in range(min(len(a), len(b))) if a[k] != b[k]), min(len(a), len(b)))
            differ += 1
            print(f"differs: {p}\n  - {a[max(0, k - 60):k + 60]}\n  + {b[max(0, k - 60):k + 60]}")
    for p in sorted(pathlib.Path("crates").glob("*/proofs/*.antt")):
        old = was(p)
        if old is None:
            print("new:", p)
            continue
        a = sorted(plain(s, True) for s in statements(old))
        b = sorted(plain(s, False) for s in statements(p.read_text()))
        laws += len(a)
        for sign, some, others in (("-", a, b), ("+", b, a)):
            for s in some:
                if s not in others:
                    print(f"law {sign} {p}: {s[:160]}")
    print(f"{files} files of specs/, {differ} differ; {laws} statements of proofs/ compared")


main()
