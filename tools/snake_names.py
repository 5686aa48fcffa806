#!/usr/bin/env python3
"""Spells this repository's own names as today's Rattle does: words in snake case, types in camel case.

usage: snake_names.py        at the top of the repository, once, after the port's own script

It goes by text. In .antt files each name with a dash that no library of the kit lends to the file gets underscores, and
the few types get capitals; names that Rattle makes (behind `tie.`, `goal.` or `code.`, invariants and measures) stay, and so do the answers to such
names in a Proof.antt.
In .rt files and must-fail edits it turns the names that .antt files of this repository declare; in comments and pages
those between backticks. Strings stay. specs/Contracts.antt becomes specs/Asks.antt, since Rattle makes a module
`specs.contracts`. It says which names would fall together in a file, and where.
"""
import glob
import os
import re
import subprocess
import sys

TYPES = {"Gives-error": "GivesError", "Known-at": "KnownAt", "Leads-safe": "LeadsSafe", "Listed-item": "ListedItem",
         "Longest-end": "LongestEnd", "No-char": "NoChar", "One-of": "OneOf", "Same-end": "SameEnd", "Token-turn": "TokenTurn"}
PART = r"[^\s(){}\[\].,;:\"«»‹›`@\\|-]+"
NAME = re.compile(rf"{PART}(?:-{PART})+")
MADE = re.compile(r"(invariant|decreases)-loop")
STRING = re.compile(r'"(?:[^"\\]|\\.)*"')
USE = re.compile(r"(?m)^\s*(?:pub |unfoldable |ghost )*use ([^\s;{]+?)\.?(?:\{([^}]*)\}|(?: as \S+)?)\s*;?$")
CALLED_MADE = re.compile(r"(?:tie|goal|code|stated|Tie|Goals|Given|Code|Statement)\.$")


def crates():
    return {os.path.basename(it) for it in glob.glob("crates/*")}


def is_own(path, own):
    steps = path.strip(".").split(".")
    return steps[0] == "Rattle" and len(steps) > 1 and steps[1] in own


def lent(code, own):
    """The names with a dash that a library of the kit lends to this file."""
    names = set()
    for path, items in USE.findall(code):
        if not is_own(path, own):
            for it in items.split(","):
                names.update(w for w in it.split(" as ")[0].split() if "-" in w)
            names.add(path.split(".")[-1])
    return names


def declared(texts):
    found = set()
    for text in texts:
        for line in text.splitlines():
            line = re.sub(r"--.*", "", STRING.sub('""', line))
            words = line.split()
            while words and words[0] in ("abbrev", "unfoldable", "pub", "data", "record"):
                words = words[1:]
            if words and ":" in words and NAME.fullmatch(words[0]):
                found.add(words[0])
    return found


def spelled(name):
    if name in TYPES:
        return TYPES[name]
    return name.replace("-", "_")


def pieces(text, comment):
    """Cuts a text into (kind, piece): code, string or comment."""
    at, out = 0, []
    for m in re.finditer(rf'"(?:[^"\\\n]|\\.)*"|{comment}[^\n]*', text):
        out.append(("code", text[at:m.start()]))
        out.append(("string" if m[0][0] == '"' else "comment", m[0]))
        at = m.end()
    out.append(("code", text[at:]))
    return out


def in_backticks(text, names):
    def one(m):
        return NAME.sub(lambda n: spelled(n[0]) if n[0] in names else n[0], m[0])
    return re.sub(r"`[^`\n]*`", one, text)


def in_antt(text, names, keep):
    out = []
    for kind, piece in pieces(text, "--(?=[ -]|$)"):
        if kind == "comment":
            piece = in_backticks(piece, names)
        elif kind == "code":
            def one(m):
                name, before = m[0], piece[:m.start()]
                if name in keep or MADE.match(name) or CALLED_MADE.search(before[-12:]):
                    return name
                if re.fullmatch(r"[0-9-]+", name) or not re.search(r"[A-Za-z]", name):
                    return name
                return spelled(name)
            piece = NAME.sub(one, piece)
        out.append(piece)
    return "".join(out)


def in_rust(text, names):
    """Clauses and ghost items: names with a dash that this repository declares. Rust has none."""
    out = []
    for kind, piece in pieces(text, "//"):
        if kind == "comment":
            piece = in_backticks(piece, names)
        elif kind == "code":
            piece = NAME.sub(lambda m: spelled(m[0]) if m[0] in names else m[0], piece)
        out.append(piece)
    return "".join(out)


def falling_together(path, text, keep):
    code = re.sub(r"--.*", "", STRING.sub('""', text))
    here = set(re.findall(rf"(?<![.\w])({PART}(?:-{PART})*)", code))
    for name in sorted(here):
        if NAME.fullmatch(name) and name not in keep and not MADE.match(name) and spelled(name) in here:
            print(f"look: {path}: {name} and {spelled(name)}")


def main():
    own = crates()
    for old in glob.glob("crates/*/specs/Contracts.antt"):
        subprocess.run(["git", "mv", old, old.replace("Contracts", "Asks")], check=True)
    antt = sorted(glob.glob("crates/*/specs/**/*.antt", recursive=True) + glob.glob("crates/*/proofs/**/*.antt", recursive=True))
    texts = {it: open(it, encoding="utf-8").read() for it in antt}
    names = declared(texts.values())
    for path, text in texts.items():
        text = re.sub(r"(?m)^(pub mod )Contracts$", r"\1Asks", text)
        text = re.sub(r"(Rattle\.\w+\.specs\.)Contracts\b", r"\1Asks", text)
        keep = lent(text, own) | set(re.findall(r"(?m)^(\S+) : tie\.Need-", text))
        falling_together(path, text, keep)
        turned = in_antt(text, names, keep)
        if turned != texts[path]:
            open(path, "w", encoding="utf-8").write(turned)
    for path in sorted(glob.glob("crates/*/src/**/*.rt", recursive=True)):
        text = open(path, encoding="utf-8").read()
        turned = in_rust(re.sub(r"(Rattle\.\w+\.specs\.)Contracts\b", r"\1Asks", text), names)
        if turned != text:
            open(path, "w", encoding="utf-8").write(turned)
    for path in sorted(glob.glob("crates/*/must-fail/*.edit")):
        text = open(path, encoding="utf-8").read()
        turned = "".join(in_rust(it, names) if it.startswith(("old:", "new:")) else in_backticks(it, names)
                         for it in text.replace("specs/Contracts.antt", "specs/Asks.antt").splitlines(keepends=True))
        if turned != text:
            open(path, "w", encoding="utf-8").write(turned)
    for path in ["README.md", *sorted(glob.glob("docs/*.md"))]:
        text = open(path, encoding="utf-8").read()
        turned = in_backticks(text.replace("specs/Contracts.antt", "specs/Asks.antt"), names)
        if turned != text:
            open(path, "w", encoding="utf-8").write(turned)


if __name__ == "__main__":
    sys.exit(main())
