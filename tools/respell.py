#!/usr/bin/env python3
"""Brings the repository's own definitions and lemmas to today's spelling: words in snake case (port.py respells only some of them).

usage: python3 tools/respell.py [--dry]      at the top of the repository, once, after port.py

A word is respelled in .antt files, in the clauses and `ghost use` lines of .rt files, and in pages where it stands between
backticks. What a file imports from the library keeps its name, and so does what follows a dot and is declared nowhere here (generated names).
"""

import collections
import os
import re
import sys

IDENT = re.compile(r"[^\s(){}\[\];,.@\"`⟨⟩]+")
DECL = re.compile(r"^\s*(?:\|\s*)?(?:(?:abbrev|pub|unfoldable|opaque|private|instance)\s+)*((?:[^\s:(){}\[\]\"]+\s+)*[^\s:(){}\[\]\"]+)\s+:(?:\s|$)")
USE = re.compile(r"^\s*(?:pub\s+)?(?:ghost\s+)?use\s+([^\s{;]+?)(?:\.\{([^}]*)\})?(?:\s+as\s+(\S+?))?;?\s*$")
WORD = re.compile(r"^[a-zα-ωσρ][\w₀-₉'’′ᴰ]*(?:-[\w₀-₉'’′ᴰ]+)*$")


def crates():
    out = []
    for line in open("crates.txt", encoding="utf-8"):
        name, colon, _ = line.partition("#")[0].partition(":")
        if colon:
            out.append(name.split()[0])
    return out


def files(own, *ends):
    for c in own:
        for folder, dirs, names in os.walk(os.path.join("crates", c)):
            dirs[:] = sorted(d for d in dirs if d not in ("out", "target"))
            for n in sorted(names):
                if n.endswith(ends):
                    yield os.path.join(folder, n)


LAWS = {}


def snake(t):
    if t in LAWS:
        return LAWS[t]
    t = t.replace("getD", "get_or")
    t = re.sub(r"([a-z0-9ᴰ])([A-Z])", r"\1_\2", t)
    t = re.sub(r"([A-Z])([A-Z][a-z])", r"\1_\2", t)
    return re.sub(r"(?<=[\w'’ᴰ])-(?=[\w])", "_", t).lower() if re.search(r"[A-Z]", t) else re.sub(r"(?<=[\w'’ᴰ])-(?=[\w])", "_", t)


def wants(t, antt=True):
    return t in LAWS and (antt or "-" in t) or bool(WORD.match(t)) and ("-" in t or re.search(r"[a-z0-9][A-Z]", t)) and snake(t) != t


def own_module(path, own):
    parts = path.split(".")
    return parts[0] == "Rattle" and len(parts) > 1 and parts[1] in own


def imported(text, own):
    """The words that a file imports from the library, and the aliases of library modules."""
    words, aliases = set(), set()
    flat = re.sub(r"\{[^}]*\}", lambda m: m.group(0).replace("\n", " "), text)
    for line in flat.split("\n"):
        m = USE.match(line)
        if not m or own_module(m.group(1), own):
            continue
        for w in (m.group(2) or "").split(","):
            w = w.strip()
            if not w:
                continue
            if " as " in w:
                a, b = [x.strip() for x in w.split(" as ")]
                words.add(a)
            else:
                words.add(w)
        if m.group(3):
            aliases.add(m.group(3))
        elif not m.group(2):
            aliases.add(m.group(1).split(".")[-1])
    return words, aliases


def code_parts(line):
    """Splits a line into (text, kind), kind 'code', 'string' or 'comment'."""
    out, i, start = [], 0, 0
    while i < len(line):
        if line[i] == '"':
            j = i + 1
            while j < len(line) and line[j] != '"':
                j += 2 if line[j] == "\\" else 1
            out.append((line[start:i], "code"))
            out.append((line[i : j + 1], "string"))
            i = start = j + 1
            continue
        if line.startswith("--", i) and (i == 0 or line[i - 1].isspace()) or line.startswith("//", i):
            out.append((line[start:i], "code"))
            out.append((line[i:], "comment"))
            return out
        i += 1
    out.append((line[start:], "code"))
    return out


def main():
    own = set(crates())
    order = crates()
    declared, dotted, plain = set(), set(), collections.defaultdict(set)
    for p in files(order, ".antt"):
        generated = p.endswith("/Proof.antt")
        for line in open(p, encoding="utf-8"):
            m = DECL.match(line)
            if not m or line.lstrip().startswith(("use ", "--", "module ")):
                continue
            for w in m.group(1).split():
                if generated:
                    continue
                if wants(w):
                    declared.add(w)
                    dotted.add(w)
                elif "_" in w and WORD.match(w):
                    plain[w].add(p)
    print(f"declared: {len(declared)}")
    clash = collections.defaultdict(set)
    for w in declared:
        clash[snake(w)].add(w)
    # a definition and a law about it that would fall together: the law says so in its name
    for s, ws in sorted(clash.items()):
        if s in plain:
            ws = ws | {s}
        if len(ws) > 1:
            camel = [w for w in ws if re.search(r"[A-Z]", w)]
            laws = [w for w in ws if w not in camel] if camel else [w for w in ws if w != s]
            if len(laws) != 1 or len(ws) != 2:
                print("fall together:", s, sorted(ws))
            for w in laws:
                LAWS[w] = s + "_law"
    changed = 0

    def turn(p, text, antt):
        words, aliases = imported(text, own)
        seen = {}
        there = set(IDENT.findall(text))

        def token(m, before):
            w = m.group(0)
            if not wants(w, antt) or w in words:
                return w
            if before.endswith(".") and not before.endswith(" ."):
                q = re.search(r"([^\s(){}\[\];,.@\"]+)\.$", before)
                if (q and q.group(1) in aliases) or w not in dotted:
                    return w
                if w in LAWS and "-" not in w:
                    return w
            elif not antt and w not in declared:
                return w
            s = snake(w)
            if seen.setdefault(s, w) != w:
                print(f"{p}: {seen[s]} and {w} are both {s}")
            if s in there and s not in LAWS and antt and not p.endswith("/Proof.antt"):
                print(f"{p}: {w} becomes {s}, which stands there already")
            if s in words:
                print(f"{p}: {w} becomes {s}, a word of the library there")
            return s

        out = []
        inside_use = False
        for line in text.split("\n"):
            if re.match(r"^\s*(?:pub\s+)?(?:ghost\s+)?use\s", line):
                m = re.match(r"^\s*(?:pub\s+)?(?:ghost\s+)?use\s+([^\s{;]+)", line)
                inside_use = not own_module(m.group(1).rstrip("."), own)
                if inside_use:
                    out.append(line)
                    if "{" not in line or "}" in line:
                        inside_use = False
                    continue
            elif inside_use:
                out.append(line)
                if "}" in line:
                    inside_use = False
                continue
            new = []
            for part, kind in code_parts(line):
                if kind == "string":
                    new.append(part)
                elif kind == "code":
                    new.append(IDENT.sub(lambda m, part=part: token(m, part[: m.start()]), part))
                else:
                    new.append(IDENT.sub(lambda m: snake(m.group(0)) if wants(m.group(0), antt) and m.group(0) in declared and (re.search(r"[a-z][A-Z]", m.group(0)) or f"`{m.group(0)}`" in part) else m.group(0), part))
            out.append("".join(new))
        return "\n".join(out)

    dry = "--dry" in sys.argv
    for p in files(order, ".antt", ".rt"):
        text = open(p, encoding="utf-8").read()
        new = turn(p, text, p.endswith(".antt"))
        if new != text:
            changed += 1
            if not dry:
                open(p, "w", encoding="utf-8").write(new)
    for p in ["README.md"] + [os.path.join(d, f) for d, _, fs in os.walk("docs") for f in sorted(fs) if f.endswith(".md")]:
        text = open(p, encoding="utf-8").read()
        new = re.sub(r"`[^`\n]+`", lambda m: IDENT.sub(lambda k: snake(k.group(0)) if k.group(0) in declared else k.group(0), m.group(0)), text)
        if new != text:
            changed += 1
            if not dry:
                open(p, "w", encoding="utf-8").write(new)
    print(f"changed: {changed} files")


main()
