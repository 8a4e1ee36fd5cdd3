#!/usr/bin/env python3
"""Brings this repository's own names to the spelling of today's Rattle, once, after the kit's port.py.

usage: tools/port_names.py [--list]     in the repository, on the tree that port.py left; --list prints the names alone

What it does, by text alone:
  - the crate `log`, whose name the kit's library has, becomes `igc_log`;
  - definitions, lemmas, constructors and fields of specs/ and proofs/ go to snake case: `readDigits` is `read_digits`,
    `length-digits` is `length_digits`; types, modules, and names that Rattle makes (`loop-i`, `tie.Need-returns`) stay;
  - a definition that would have a Rust function's name ends in `_of`;
  - `now x` is `x.now`;
  - a plain type derives Clone and Copy, as every value could be copied in the older Rattle.
"""
import os
import pathlib
import re
import subprocess
import sys
from collections import defaultdict

CRATES = pathlib.Path("crates")
MADE = re.compile(r"^(invariant|decreases|loop|returns|ghost)-")
IDENT = r"[^\s(){}\[\];,.\"λ@«»]+"
DECL = re.compile(r"^\s*(?:(?:abbrev|unfoldable|pub|ruleset) )*(" + IDENT + r")(?: (?:\(|\{).*)? :(?: |$)")
USE = re.compile(r"(?:^|\n)\s*(?:(?:unfoldable|pub|ghost) )*use ([^;\n{]*?)\.?(\{[^}]*\})?;?(?=\n|$)")


SPECIAL = {"Line-read": "LineReading", "Watch-read": "WatchReading", "LF-passes": "lf_passes", "LF-closes": "lf_closes"}


def snake(name):
    if name in SPECIAL:
        return SPECIAL[name]
    if not re.match(r"^[a-z]", name):
        return name
    name = re.sub(r"([a-z0-9])([A-Z])", r"\1_\2", name)
    name = re.sub(r"([a-z0-9_'≤=₀-₉-])([A-Z])(?=[a-z]|$|[-_])", lambda m: m.group(1) + m.group(2), name)
    name = re.sub(r"[A-Z]", lambda m: m.group(0).lower(), name)
    return name.replace("-", "_")


def antt_files():
    return sorted(p for p in CRATES.rglob("*.antt") if "out" not in p.parts)


def rt_files():
    return sorted(p for p in CRATES.rglob("*.rt") if "out" not in p.parts)


def crate_of(path):
    return path.parts[1]


def own_path(module, crates):
    m = re.match(r"Rattle\.(\w+)\.(specs|proofs)\b", module)
    return bool(m) and m.group(1) in crates


def uses(text):
    """(module, [names]) of each import of named items."""
    for m in USE.finditer(text):
        if m.group(2):
            names = [n.strip() for n in m.group(2)[1:-1].split(",")]
            yield m.group(1), [n for n in names if n]


def declared():
    """Own names that need another spelling, each with the files that declare it."""
    own = defaultdict(set)
    for p in antt_files():
        generated = set()
        text = p.read_text()
        for m in re.finditer(r"\btie\.(" + IDENT + ")", text):
            generated.add(m.group(1))
        for line in text.split("\n"):
            m = DECL.match(line)
            if not m:
                continue
            n = m.group(1)
            if MADE.match(n) or n in generated or snake(n) == n or "◌" in n or n.startswith("#"):
                continue
            own[n].add(p)
    return own


def foreign(crates):
    """Names that some file takes from the library."""
    got = set()
    for p in antt_files() + rt_files():
        for module, names in uses(p.read_text()):
            if not own_path(module, crates) or ".declared" in module or module.endswith((".Goals", ".Given", ".Tie")):
                got.update(n.split(" as ")[0].strip() for n in names)
    return got


def functions():
    got = set()
    for p in rt_files():
        got.update(re.findall(r"\bfn (\w+)", p.read_text()))
    return got


def spelling(own, lib):
    plain = set()
    for p in antt_files():
        for line in p.read_text().split("\n"):
            m = DECL.match(line)
            if m:
                plain.add(m.group(1))
    fns = functions()
    new, taken = {}, defaultdict(list)
    for n in sorted(own):
        if n in lib:
            print("look: also a name of the library, left:", n)
            continue
        s = snake(n)
        if s in fns and any("specs" in p.parts for p in own[n]):
            s += "_lem" if s.endswith("_of") else "_of"
        taken[s].append(n)
        new[n] = s
    # Where two fall together the definition has the name, and the lemma of it ends in _lem.
    words = {p: set(re.findall(IDENT, p.read_text())) for p in antt_files() + rt_files()}
    for s, ns in sorted(taken.items()):
        for n in ns:
            other = [m for m in ns if m != n]
            here = [str(p) for p, w in words.items() if n in w and s in w]
            if (other and "-" in n) or (here and not other):
                new[n] = s + ("_lem" if "-" in n else "_of")
                if new[n] in plain or new[n] in taken:
                    print("look: stands already:", new[n], "<-", n)
                if here:
                    print("look: stands beside it:", n, s, " ".join(here))
    return new


TOKEN = re.compile(r"--[^\n]*|//[^\n]*|\"[^\"\n]*\"|" + IDENT + r"(?:\." + IDENT + r")*|.", re.S)


def turned_path(token, new, fields):
    parts = token.split(".")
    if parts[0] in ("Rattle", "tie"):
        if parts[0] == "Rattle" and len(parts) > 1 and ".declared" not in token and ".contracts" not in token:
            return ".".join([parts[0]] + ["igc_log" if p == "log" and i == 0 else p for i, p in enumerate(parts[1:])])
        if parts[0] == "Rattle" and len(parts) > 1 and parts[1] == "log":
            parts[1] = "igc_log"
            return ".".join(parts)
        if parts[0] == "Rattle":
            return token
        if parts[0] == "tie":
            # a field of what the walk makes keeps its name
            return token
    out = [new.get(parts[0], parts[0])]
    module = parts[0][:1].isupper()
    for q in parts[1:]:
        if q in fields and q in new:
            out.append(new[q])
        elif (module or q in SPECIAL) and q in new:
            out.append(new[q])
        else:
            out.append(q)
    return ".".join(out)


def turned(text, new, fields):
    def one(m):
        t = m.group(0)
        if t.startswith(("--", "//")):
            return re.sub(r"`([^`]*)`", lambda k: "`" + turned_names(k.group(1), new, fields) + "`", t)
        if t.startswith('"'):
            return t
        return turned_path(t, new, fields)

    return TOKEN.sub(one, text)


def turned_names(text, new, fields):
    return re.sub(IDENT + r"(?:\." + IDENT + r")*", lambda m: turned_path(m.group(0), new, fields), text)


def own_fields():
    """Fields of own records."""
    got = set()
    for p in antt_files():
        inside = False
        for line in p.read_text().split("\n"):
            if re.match(r"^\s*(pub )?record ", line):
                inside = True
                continue
            if inside:
                m = re.match(r"^\s+(?:pub )?(" + IDENT + r") :", line)
                if m:
                    got.add(m.group(1))
                elif line.strip() and not line.startswith(" "):
                    inside = False
    return got


NOW = re.compile(r"(?<![\w.'-])now (?=[a-zA-Z(])")


def now_behind(text):
    """`now x` is `x.now`."""
    at = 0
    while True:
        m = NOW.search(text, at)
        if not m:
            return text
        line = text.rfind("\n", 0, m.start()) + 1
        before = text[line:m.start()]
        if "--" in before or "use " in before or "{" in before and "now" in before and ":" not in before:
            at = m.end()
            continue
        i = m.end()
        if text[i] == "(":
            depth, j = 0, i
            while True:
                depth += {"(": 1, ")": -1}.get(text[j], 0)
                j += 1
                if depth == 0:
                    break
            rest = re.match(r"(?:\." + IDENT + r")*", text[j:]).group(0)
            atom = text[i:j] + rest
            end = j + len(rest)
        else:
            a = re.match(IDENT + r"(?:\." + IDENT + r")*", text[i:]).group(0)
            if a in ("in",) or text[i + len(a):i + len(a) + 3] == " : ":
                at = m.end()
                continue
            atom, end = a, i + len(a)
        text = text[:m.start()] + atom + ".now" + text[end:]
        at = m.start()


def imports_without(text, name):
    """The import lists without that name."""
    def one(m):
        names = [n.strip() for n in m.group(2).split(",")]
        left = [n for n in names if n and n != name]
        if len(left) == len([n for n in names if n]):
            return m.group(0)
        return m.group(1) + "{" + ", ".join(left) + "}" if left else ""

    return re.sub(r"(?m)^((?:(?:unfoldable|pub) )*use [^{\n]*)\{([^}]*)\}", one, text)


def preludes(text):
    """What the files open by text's Preludes: `needs` is `rules`, and `now` is a field."""
    body = re.sub(r"(?m)^(?:(?:unfoldable|pub) )*use [^{\n]*(\{[^}]*\})?", "", text)
    if not re.search(r"(?<![\w.'-])now(?![\w'-])", body):
        text = imports_without(text, "now")
    else:
        text = re.sub(r"denote\.Ref\.\{now\}", "denote.Bor.{now}", text)
    text = imports_without(text, "RefT")
    text = re.sub(r"\.ptr(?![\w'-])", ".ref_ptr", text)
    return re.sub(r"(?<![\w.'-])needs(?![\w'-])", "rules", text)


# What the gate wants taken from the library itself wherever a contract or a definition names it.
OPERATORS = """◌%◌ ◌&&◌ ◌*ℤ◌ ◌*◌ ◌++◌ ◌+ℤ◌ ◌+◌ ◌-ℤ◌ ◌-◌ ◌/◌ ◌<ℤ◌ ◌<◌ ◌==◌ ◌^◌ ◌||◌ ◌↔◌ ◌∷◌ ◌≡◌ ◌≢◌ ◌≤ℤ◌ ◌≤◌ ◌⊎◌""".split()


def operators(text):
    """Takes the library's operators from std's Prelude, and no more by way of text's."""
    def one(m):
        names = [n.strip() for n in m.group(3).split(",") if n.strip()]
        theirs = [n for n in names if n in OPERATORS]
        left = [n for n in names if n not in OPERATORS]
        if not theirs:
            return m.group(0)
        end = m.group(4)
        lines = [m.group(1) + "use Rattle.std.specs.Prelude.{" + ", ".join(theirs) + "}" + end]
        if left:
            lines.append(m.group(1) + "use Rattle." + m.group(2) + ".{" + ", ".join(left) + "}" + end)
        return "\n".join(lines)

    return re.sub(r"(?m)^((?:ghost )?)use Rattle\.(text\.specs\.Prelude)\.\{([^}]*)\}(;?)", one, text)


def clauses(text, turn):
    """Turns the ghost lines, clauses and ghost fields of a source file."""
    out, i = [], 0
    head = re.compile(r"^[ \t]*(?:ghost use [^;]*;|(?:requires|ensures)\*?(?: \w+)? \{|ghost \w+: \{|#\[tactic)", re.M)
    while True:
        m = head.search(text, i)
        if not m:
            out.append(text[i:])
            return "".join(out)
        out.append(text[i:m.start()])
        if m.group(0).rstrip().endswith("{"):
            depth, j = 0, m.end() - 1
            while True:
                depth += {"{": 1, "}": -1}.get(text[j], 0)
                j += 1
                if depth == 0:
                    break
            out.append(turn(text[m.start():j]))
            i = j
        else:
            out.append(turn(m.group(0)))
            i = m.end()


def aliases(text, new):
    """Names behind an alias of one of our modules, as `maker.letterOf`."""
    known = set(re.findall(r"use Rattle\.[\w.]+ as (\w[\w']*)", text))

    def one(m):
        return m.group(1) + "." + new[m.group(2)] if m.group(1) in known and m.group(2) in new else m.group(0)

    return re.sub(r"(?<![\w.'-])(\w[\w']*)\.(" + IDENT + ")", one, text) if known else text


def rename_log():
    if (CRATES / "log").is_dir():
        subprocess.run(["git", "mv", "crates/log", "crates/igc_log"], check=True)
    listed = pathlib.Path("crates.txt")
    lines = listed.read_text().split("\n")
    lines = [l if l.startswith("#") else re.sub(r"\blog\b", "igc_log", l) for l in lines]
    listed.write_text("\n".join(lines))
    for p in antt_files() + rt_files():
        t = p.read_text()
        u = re.sub(r"\bRattle\.log\.", "Rattle.igc_log.", t)
        if p.suffix == ".rt":
            u = re.sub(r"\buse log::", "use igc_log::", u)
            u = re.sub(r"(?<![\w.:])log::(?=\w)", "igc_log::", u)
        if u != t:
            p.write_text(u)


def copies():
    for p in rt_files():
        t = p.read_text()
        u = t.replace("#[derive(Drop)]", "#[derive(Clone, Copy)]")
        if u != t:
            p.write_text(u)


def main():
    rename_log()
    crates = {p.name for p in CRATES.iterdir()}
    own, lib = declared(), foreign({p.name for p in CRATES.iterdir()})
    new, fields = spelling(own, lib), own_fields()
    for n in sorted(new):
        print(n, "->", new[n])
    if "--list" in sys.argv:
        return
    copies()
    for p in antt_files():
        t = p.read_text()
        mine = dict(new)
        for module, names in uses(t):
            if not own_path(module, crates):
                for n in names:
                    mine.pop(n.split(" as ")[-1].strip(), None)
        u = preludes(now_behind(aliases(turned(t, mine, fields), new)))
        if "specs" in p.parts:
            u = operators(u)
        if "proofs" in p.parts and p.name == "Proof.antt":
            u = re.sub(r"(?m)^(pub )([\w-]+)-spec\b", lambda m: m.group(1) + m.group(2).replace("-", "_") + "_spec", u)
            u = re.sub(r"(?m)^([\w-]+)-spec( [^:\n]*)?=", lambda m: m.group(1).replace("-", "_") + "_spec" + (m.group(2) or " ") + "=", u)
        if u != t:
            p.write_text(u)
    for p in rt_files():
        t = p.read_text()
        u = operators(clauses(t, lambda s: turned(s, new, fields)))
        if u != t:
            p.write_text(u)


main()
