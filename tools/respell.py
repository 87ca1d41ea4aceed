#!/usr/bin/env python3
"""Brings this repository's own definitions, lemmas and fields to the library's spelling.

usage: tools/respell.py            at the top of the repository, once, right after port.py

A word is in snake case (`setLocked`, `set-has` become `set_locked`, `set_has`), a type in camel case. A lemma that would
then have its function's name gets `_lem`. Names that the source or the library gives keep their spelling, and so do the
names of goals in proofs/**/{Proof,Answers,Invariants}.antt. Comments, edits and pages follow.
"""

import collections
import pathlib
import re
import sys

NAME = r"(?<![\w'◌≡≢∷∙⊎×↔ᴰ\-/])[A-Za-z][\w']*(?:-[\w']+)*-?(?![\w'\-◌≡∷])"
TOKEN = re.compile(NAME)
HEAD = re.compile(r"^\s*(?:(?:abbrev|unfoldable|pub|open)\s+)*(?:(data|record|ruleset|module)\s+)?([A-Za-z][\w'\-]*)((?:\s*[({][^={}]*)?\s*(?::|=|where))")
BINDER = re.compile(r"[({]\s*((?:[A-Za-z_][\w'\-]*\s+)*[A-Za-z_][\w'\-]*)\s*:\s")
LAMBDA = re.compile(r"λ\s+((?:\([^()]*\)|[^.()])*?)\.\s")
LET = re.compile(r"\blet\s+([A-Za-z][\w'\-]*)\s*[:=]")
USE = re.compile(r"^\s*(?:pub\s+)?(?:ghost\s+)?use\s+([\w.◌+'\-]+?)(?:\.\{([^}]*)\})?(?:\s+as\s+([\w'\-]+))?;?\s*$")
GOALS = re.compile(r"^(?:pub\s+)?([A-Za-z+μ][\w'+\-]*)\s*:\s*(?:tie|goal)\.")
SOURCE_WORDS = {"has_room"}  # a function of src/ whose specification's word takes its name


def crates(root):
    return sorted(p.name for p in (root / "crates").iterdir())


def snake(name):
    head, tail = (name, "") if not name.endswith("'") else (name.rstrip("'"), name[len(name.rstrip("'")):])
    if head.isupper() or re.fullmatch(r"[A-Z][A-Z\-_]*", head):
        return head.replace("-", "_") + tail
    if head[0].isupper():
        return head + tail
    out = re.sub(r"[A-Z]", lambda m: "_" + m.group(0).lower(), head)
    return out.replace("-", "_") + tail


def wants(name):
    return "-" in name or (name[0].islower() and re.search(r"[a-z0-9][A-Z]", name)) or name == "allows"


def code_of(text):
    return "\n".join(re.sub(r"--.*$", "", line) for line in text.split("\n"))


def is_type(lines, at):
    sig = lines[at]
    k = at + 1
    while k < len(lines) and lines[k].strip().startswith("→"):
        sig += " " + lines[k].strip()
        k += 1
    return bool(re.search(r"(?:→|:)\s*Type \d\s*(?:where)?\s*$", sig))


def foreign(text, own):
    """The names that a file takes from the library."""
    out = set()
    for line in text.split("\n"):
        m = USE.match(line)
        if not m:
            continue
        path, names, alias = m.groups()
        if re.match(r"Rattle\.(\w+)", path) and path.split(".")[1] in own:
            # generated names of a crate of this repository, as `.Statement.{statement}`, have no dash to turn
            continue
        for n in re.split(r",\s*", names or path.split(".")[-1]):
            n = n.strip()
            m2 = re.match(r"(\S+)\s+as\s+(\S+)", n)
            if m2:
                out.add(m2.group(1))
            else:
                out.add(n)
    return out


def declared(root, own):
    """name -> how it is declared, over all crates, and each name's files."""
    kinds = collections.defaultdict(set)
    goals = collections.defaultdict(set)
    for p in sorted((root / "crates").glob("*/**/*.antt")):
        text = code_of(p.read_text(encoding="utf-8"))
        lines = text.split("\n")
        of_function = p.name in ("Proof.antt", "Answers.antt", "Invariants.antt")
        if of_function:
            goals[p] = {m.group(1) for m in map(GOALS.match, lines) if m}
            goals[p] |= {m.group(1) for m in map(re.compile(r"^(?:pub )?(\S+-spec) :").match, lines) if m}
        for i, line in enumerate(lines):
            m = HEAD.match(line)
            if m and m.group(2) not in ("use", "let", "elim", "in") and m.group(2) not in goals[p]:
                kinds[m.group(2)].add("type" if m.group(1) in ("data", "record") or is_type(lines, i) else "term")
        for line in lines:
            m = USE.match(line)
            if m and m.group(3):
                kinds[m.group(3)].add("local")
            if m and m.group(2):
                for n in re.findall(r" as ([A-Za-z][\w'\-]*)", m.group(2)):
                    kinds[n].add("local")
        for pattern in (BINDER, LAMBDA, LET):
            for m in pattern.finditer(text):
                for n in re.findall(r"[A-Za-z][\w'\-]*", m.group(1)):
                    kinds[n].add("local")
        for m in re.finditer(r"^\s*([A-Za-z][\w'\-]*)((?:\s+[\w'\-(){},∷\[\]=]+)+)\s*=(?:\s|$)", text, re.M):
            for n in re.findall(r"[A-Za-z][\w'\-]*", m.group(2)):
                kinds[n].add("local")
    return kinds, goals


def table(kinds):
    out = {}
    for n in sorted(kinds):
        if not wants(n):
            continue
        if n in ("allows", "allows-lent"):
            out[n] = {"allows": "Allows", "allows-lent": "AllowsLent"}[n]
            continue
        if n[0].isupper() and not re.fullmatch(r"[A-Z][A-Z\-_]*", n):
            # a type joined to a word keeps its dash
            continue
        out[n] = snake(n)
    for n, to in list(out.items()):
        # two names that fall together: the lemma, written with dashes or turned by port.py, gets `_lem`
        if "-" in n and (to in kinds or any(o != n and t == to and "-" not in o for o, t in out.items())):
            out[n] = to + "_lem"
        elif "-" not in n and "term" in kinds.get(to, ()) and to not in SOURCE_WORDS:
            out[to] = to + "_lem"
    return out


def turn(text, names, keep):
    """The code alone: comments are turn_comments'."""
    def line(text):
        cut = re.search(r"--|//", text)
        code, rest = (text[:cut.start()], text[cut.start():]) if cut else (text, "")
        parts = re.split(r'("(?:[^"\\]|\\.)*")', code)
        word = lambda m: m.group(0) if m.group(0) in keep else names.get(m.group(0), m.group(0))
        return "".join(p if p.startswith('"') else TOKEN.sub(word, p) for p in parts) + rest
    return "\n".join(map(line, text.split("\n")))


def turn_page(text, names, now, edits):
    """A page speaks of names as they stood before port.py too; a mistake is named as its edit's file is."""
    def one(m):
        t = m.group(0)
        after = text[m.end():m.end() + 10]
        if t in edits or not ("-" in t or re.search(r"[a-z][A-Z]", t)) or t[0].isupper():
            return t
        if re.match(r"\.(?:edit|schedule|md|txt|antt|rt|tsv|out)\b|/|\]\(", after):
            return t
        if t in names:
            return names[t]
        return snake(t) if snake(t) in now else t
    return TOKEN.sub(one, text)


def turn_comments(text, names, now, edits):
    return "\n".join(re.sub(r"--.*$|//.*$", lambda m: turn_page(m.group(0), names, now, edits), line) for line in text.split("\n"))


def pages(root):
    for pattern in ("crates/*/must-fail/*.edit", "tools/mutants/*", "tools/rule-mutants", "README.md", "docs/*.md", "lessons/*.md"):
        for p in sorted(root.glob(pattern)):
            if p.is_file() and p.suffix in ("", ".edit", ".md", ".txt", ".rs") and p.name != "PORT.md":
                yield p


def main():
    root = pathlib.Path(".").resolve()
    own = set(crates(root))
    kinds, goals = declared(root, own)
    names = table(kinds)
    edits = {p.stem for p in list(root.glob("crates/*/must-fail/*.edit")) + list(root.glob("tools/mutants/*.edit"))}
    public = {n: to for n, to in names.items() if kinds[n] & {"term", "type"}}
    now = {names.get(n, n) for n in kinds if kinds[n] & {"term", "type"}}
    count = 0
    for p in sorted((root / "crates").glob("*/**/*")):
        if p.suffix not in (".antt", ".rt") or not p.is_file():
            continue
        text = p.read_text(encoding="utf-8")
        keep = foreign(text, own) | goals.get(p, set())
        mine = names if p.suffix == ".antt" else {n: to for n, to in names.items() if wants(n)}
        new = turn_comments(turn(text, mine, keep), public, now, edits)
        if new != text:
            p.write_text(new, encoding="utf-8")
            count += 1
    for p in pages(root):
        text = p.read_text(encoding="utf-8")
        new = turn(text, names, edits | {p.stem}) if p.suffix == ".edit" else turn_page(text, public, now, edits)
        if new != text:
            p.write_text(new, encoding="utf-8")
            count += 1
    print(f"respell: {len(names)} names, {count} files")
    for n, to in names.items():
        print(f"  {n} -> {to}")


if __name__ == "__main__":
    sys.exit(main())
