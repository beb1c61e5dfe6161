#!/usr/bin/env python3
"""Spells the definitions, lemmas, fields and local names of this repository's specs/ and proofs/ in snake case.

usage: tools/respell.py [--list]      at the top of the repository, once, after port.py

A name in lower camel case, as setFigures, and a name with dashes, as below-zero, get underscores in every text of
specs/, proofs/ and must-fail/ and in the contracts of src/, and so do names within backquotes in comments and pages.
A name that ends with a middle dot gets an apostrophe. What a library or the toolchain names stays: a name that a file
imports from a library stays in that file, and a name of a goal or a step stays wherever this repository declares none.
A lemma that would get its function's name gets _lem. CHOSEN are names that would meet another in some file.
"""

import os
import re
import sys

NAME = r"[^\s(){}\[\].;,@\"«»:|]+"
TOKEN = re.compile(rf"{NAME}|:")
WORDS = "pub abbrev unfoldable record data where let in elim rw simp open use private infix infixl infixr".split()
DECLARED = re.compile(
    rf"^(\s*)((?:pub |abbrev |unfoldable |private |record |data )*)({NAME}(?: {NAME})*?)((?: (?:\([^()]*\)|\{{[^{{}}]*\}}))*) :(?: |$)"
)
BOUND = re.compile(rf"(?:\blet |λ |\()({NAME}(?: {NAME})*) ?(?::|=|\.)")
USE = re.compile(r"\buse ([^\s;{]+?)\.?\{([^}]*)\}|\buse ([^\s;{]+)(?: as ([^\s;]+))?")
FIELD_LINE = re.compile(rf"({NAME}) = ")
OWN = "Rattle."
LIBRARY = re.compile(r"Rattle\.(core|std|std_\w+|libc|io|os|bytes)\b")

CHOSEN = {
    "engineCounts": "engine_counts_length",
    "engineNumbers": "engine_numbers_length",
    "jobCounts": "job_counts_length",
    "jobNumbers": "job_numbers_length",
    "at-most": "at_most_lem",
    "lastDigits": "digits_at_end",
    "takeT": "take_term",
}
# Lemmas that port.py gave the name of their function.
FIRST = {
    "counts/proofs/RoundTrip.antt": "digit_value",
    "error_terms/proofs/Floors.antt": "part_low",
    "floats/proofs/Exact.antt": "units_of",
    "input_lines/proofs/Keeping.antt": "last_line",
    "joins/proofs/JoinLaws.antt": "read_back",
    "joins/proofs/Listed.antt": "read_back",
}
LEMMAS = set()
# The names that this repository declares in the end; port.py respelled some, but not in pages, comments and edits.
FINAL = set()


def spelled(name):
    if len(name) > 2 and name[0] == name[-1] == "◌":
        return "◌" + spelled(name[1:-1]) + "◌"
    if name in CHOSEN:
        return CHOSEN[name]
    dots = len(name) - len(name.rstrip("·"))
    name = name.rstrip("·") + "'" * dots
    if re.match(r"[a-z]", name):
        name = re.sub(r"(?<=[a-z0-9])[A-Z]", lambda m: "_" + m[0], name).lower()
    if re.match(r"[A-Za-z]", name):
        if "-" in name:
            name = name.replace("-", "_") + ("_lem" if name in LEMMAS else "")
    return name


def texts(root):
    for folder, dirs, files in os.walk(os.path.join(root, "crates")):
        dirs[:] = sorted(d for d in dirs if d not in ("out", ".git"))
        for f in sorted(files):
            yield os.path.join(folder, f)


def is_library(path):
    return not path.startswith(OWN) or bool(LIBRARY.match(path))


def imports(text):
    """The names that a text imports from libraries, and those that it imports from the repository."""
    library, own = set(), set()
    for m in USE.finditer(text):
        path = m[1] or m[3]
        into = library if is_library(path) else own
        if m[2] is not None:
            for part in m[2].split(","):
                words = part.split()
                if words:
                    (own if len(words) > 1 else into).add(words[-1])
        elif m[4]:
            into.add(m[4])
    return library, own


def code_of(line):
    i = line.find("--")
    while i > 0 and not line[i - 1].isspace():
        i = line.find("--", i + 1)
    return (line, "") if i < 0 else (line[:i], line[i:])


def declared(path, text):
    names = set()
    generated = "/proofs/" in path and "/" in path.split("/proofs/")[1]
    for line in text.split("\n"):
        code, _ = code_of(line)
        if code.lstrip().startswith(("use ", "pub use ", "mod ", "pub mod ")):
            names.update(n.strip("◌") for n in re.findall(rf" as ({NAME})[,}}]", code))
            continue
        m = DECLARED.match(code)
        if m:
            rest = code[m.end():]
            if generated and re.match(r"(tie|goal|statement)\b", rest):
                continue
            if generated and re.match(r"\{M : ", rest):
                continue
            names.update(m[3].split())
        if not generated:
            for m in BOUND.finditer(code):
                names.update(m[1].split())
    return names


def main():
    root = os.getcwd()
    files = {p: open(p, encoding="utf-8").read() for p in texts(root) if p.endswith((".antt", ".rt", ".edit"))}
    for p, name in FIRST.items():
        p = os.path.join(root, "crates", p)
        files[p] = re.sub(rf"(?<![\w.'-]){name}(?![\w'-])", name + "_lem", files[p])
    names, local = set(), {}
    for p, t in files.items():
        if p.endswith(".antt"):
            found = {n for n in declared(p, t) if spelled(n) != n}
            if "/proofs/" in p and "/" in p.split("/proofs/")[1]:
                local[p] = found
            else:
                names |= found
    taken = {spelled(n) for n in names | set().union(*local.values()) if "-" not in n}
    for p, t in files.items():
        if p.endswith(".antt"):
            taken |= {n for n in declared(p, t) if "-" not in n and spelled(n) == n}
    LEMMAS.update(n for n in names | set().union(*local.values()) if "-" in n and n.replace("-", "_") in taken)
    FINAL.update(taken | {spelled(n) for n in names})
    changes, meets = {}, {}
    for p, t in files.items():
        if p.endswith(".edit"):
            continue
        library, _ = imports(t)
        mine = names | local.get(p, set())
        body = "\n".join(code_of(l)[0] for l in t.split("\n")) if p.endswith(".antt") else t
        tokens = set(re.findall(NAME, re.sub(r"(?m)^ *(pub )?use .*$", lambda m: re.sub(r"[\w·]+\.(?!\{)", "", m[0]), body)))
        if "/proofs/" in p and "/" in p.split("/proofs/")[1]:
            tokens -= set(re.findall(rf"\.({NAME})", body)) - set(re.findall(rf"(?<![.\w'-])({NAME})", body))
        here = {n.strip("◌") for n in tokens if n.strip("◌") in mine and n not in library}
        if p.endswith(".rt"):
            tokens = set(re.findall(r"\b(\w+): ", re.sub(r"(?s)struct \w+[^{]*\{.*?\n\}", "", body))) | set(re.findall(r"\blet (?:mut )?(\w+)", body)) | library
        back = {}
        for n in here:
            back.setdefault(spelled(n), []).append(n)
        for new, olds in back.items():
            if len(olds) > 1 or new in tokens:
                meets.setdefault(new, []).append((os.path.relpath(p, root), olds))
        changes[p] = here
    for new, places in sorted(meets.items()):
        print("meets:", new, places[:4], len(places))
    print(len(names), "names;", sum(map(len, local.values())), "local ones;", len(meets), "meet another")
    if "--list" in sys.argv:
        for n in sorted(names):
            print(n, spelled(n))
        return
    if meets and "--force" not in sys.argv:
        raise SystemExit(1)
    for p, t in files.items():
        if p.endswith(".edit"):
            here = names
        else:
            here = changes[p]
        new = respell(p, t, here, names)
        if new != t:
            open(p, "w", encoding="utf-8").write(new)
    for folder, dirs, found in os.walk(root):
        dirs[:] = [d for d in dirs if d not in (".git", "crates", "target", "rust", "oracle")]
        for f in found:
            p = os.path.join(folder, f)
            if f.endswith(".md"):
                t = open(p, encoding="utf-8").read()
                new = quoted(t, names)
                if new != t:
                    open(p, "w", encoding="utf-8").write(new)


def known(name, names):
    return spelled(name) if name in names or spelled(name) in FINAL else name


def quoted(text, names):
    """Names within backquotes; a name in camel case anywhere."""
    def turn(m):
        return re.sub(r"[\w'·-]+", lambda w: known(w[0], names), m[0])
    # port.py reads a product of two capitals as a name with a dot in it.
    text = re.sub(r"(?<=[A-Zᵀ])-as-(?=[A-Z])", "·", text)
    text = re.sub(r"`[^`\n]*`", turn, text)
    return re.sub(r"\b[a-z]+[A-Z]\w*", lambda w: known(w[0], names), text)


def respell(path, text, here, every):
    out = []
    for line in text.split("\n"):
        if path.endswith(".antt"):
            code, comment = code_of(line)
            out.append(TOKEN.sub(lambda m: spelled(m[0]) if m[0].strip("◌") in here else m[0], code) + quoted(comment, every))
        elif path.endswith(".rt"):
            i = line.find("//")
            code, comment = (line, "") if i < 0 else (line[:i], line[i:])
            out.append(TOKEN.sub(lambda m: spelled(m[0]) if m[0] in here else m[0], code) + quoted(comment, every))
        else:
            out.append(TOKEN.sub(lambda m: known(m[0], every), line) if re.match(r"(old|new):", line) else line)
    return "\n".join(out)


main()
