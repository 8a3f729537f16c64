#!/usr/bin/env python3
"""Spells the repository's own definitions and lemmas as today's Rattle does: words in snake case, joined by no dash.

usage: python3 tools/respell.py [--check]     at the top of the repository, once, after the kit's port.py

A name is the repository's own where a file of specs/, or a file of laws in proofs/, defines it; it begins with a small
letter (types and facts keep their capitals). The crate log, whose name is a library's of the kit, becomes catalog. What a file imports from the library keeps its spelling there. In a
function's own proof file only names that it imports from the repository are respelled, for the others are made by Rattle.
Functions of src/, exported names, strings, inputs and outputs are not touched, and the notes in docs/changes keep the
names of their time. With --check nothing is written: names that
would fall together are listed, and the exit status says whether there are any. The pages of docs/ and the header's and
README's prose name definitions between backticks: there an old name, also one that port.py has respelled in the sources,
becomes the new one.
"""

import glob
import os
import re
import subprocess
import sys

NAME = r"[A-Za-z_][A-Za-z0-9_'′]*(?:-[A-Za-z0-9_'′]+)*"
TOKEN = re.compile(NAME)
USE = re.compile(r"^(?:ghost )?use ([^\s;{]+?)(?:\.\{([^}]*)\})?(?: as \S+)?;?\s*$")
DEFINES = re.compile(r"^\s*(?:(?:abbrev|unfoldable|pub)\s+)*((?:" + NAME + r"\s+)*" + NAME + r")\s*:(?=\s|$)")

# port.py has respelled this lemma, and not the function that it now falls together with
ALONE = {"crates/demands/proofs/Scan/Right.antt": {"from_end": "from_end_lem"}}


def snake(name):
    if not (name[0].islower() or name[0] == "_"):
        return name
    name = name.replace("-", "_").replace("′", "'")
    return re.sub(r"(?<=[a-z0-9])[A-Z]", lambda m: "_" + m.group(0).lower(), name)


def respelling(own):
    """Each own name whose spelling changes, with the new one. A lemma that would have a function's name gets `_lem`."""
    functions = {snake(name) for name in own if "-" not in name}
    change = {name: snake(name) + ("_lem" if "-" in name and snake(name) in functions else "") for name in own}
    return {old: new for old, new in change.items() if old != new}


def read(path):
    with open(path, encoding="utf-8") as file:
        return file.read()


def is_law(path):
    return os.path.basename(path) not in ("Proof.antt", "Answers.antt", "Invariants.antt")


def crates():
    return {os.path.basename(folder) for folder in glob.glob("crates/*") if os.path.isdir(folder)}


def own_module(module, names):
    parts = module.split(".")
    return len(parts) > 1 and parts[0] == "Rattle" and parts[1] in names and "declared" not in parts


def imports(text, names):
    """What a file imports: from the repository's own modules, and from others."""
    own, other = set(), set()
    for line in text.split("\n"):
        use = USE.match(line.strip())
        if use and use.group(2):
            (own if own_module(use.group(1), names) else other).update(TOKEN.findall(use.group(2)))
    return own, other


def defined(text, names):
    other = imports(text, names)[1]
    found = set()
    for line in text.split("\n"):
        if line.lstrip().startswith("--"):
            continue
        match = DEFINES.match(line)
        if match:
            found.update(match.group(1).split())
    return {name for name in found if name not in other and name not in ("pub", "abbrev", "unfoldable")}


def respelled(text, change):
    """The text of an .antt file with its names changed; in a comment only those that are no English words with a dash."""
    lines = []
    for line in text.split("\n"):
        code, dashes, comment = line.partition("--") if re.search(r"(^|\s)--(\s|$)", line) else (line, "", "")
        code = TOKEN.sub(lambda m: change.get(m.group(0), m.group(0)), code)
        comment = TOKEN.sub(lambda m: m.group(0) if "-" in m.group(0) else change.get(m.group(0), m.group(0)), comment)
        comment = re.sub(r"`[^`]*`", lambda q: TOKEN.sub(lambda m: change.get(m.group(0), m.group(0)), q.group(0)), comment)
        lines.append(code + dashes + comment)
    return "\n".join(lines)


def respelled_source(text, change):
    """The text of a .rt file with its names changed, strings aside."""
    return re.sub(
        r'"(?:\\.|[^"\\])*"|' + NAME,
        lambda m: m.group(0) if m.group(0)[0] == '"' or "-" in m.group(0) else change.get(m.group(0), m.group(0)),
        text,
    )


def fall_together(path, text, change, shown):
    tokens = set(TOKEN.findall(re.sub(r"(?m)(^|\s)--\s.*$", "", text)))
    by_new = {}
    for token in tokens:
        by_new.setdefault(change.get(token, token), set()).add(token)
    for new, old in sorted(by_new.items()):
        if len(old) > 1:
            shown.append(f"{path}: {', '.join(sorted(old))} would all be {new}")


def old_names(names):
    """Every own name of the commit before port.py, for the pages."""
    first = read("docs/PORT.md").split("\n")[0].split() if os.path.exists("docs/PORT.md") else []
    landed = os.environ.get("LANDED", first[-1].strip("`") if first else "HEAD")
    files = subprocess.run(["git", "ls-tree", "-r", "--name-only", landed, "crates"], capture_output=True, text=True).stdout.split("\n")
    found = set()
    for path in files:
        if path.endswith(".antt") and is_law(path):
            text = subprocess.run(["git", "show", f"{landed}:{path}"], capture_output=True, text=True).stdout
            found |= defined(text.replace("Rattle·", "Rattle.").replace("·", "."), names)
    return found


def rename_crate():
    """The kit has a library named log: the crate is catalog, in paths, in crates.txt, and where the pages name it."""
    if not os.path.isdir("crates/log"):
        return
    os.rename("crates/log", "crates/catalog")
    sources = glob.glob("crates/**/*.antt", recursive=True) + glob.glob("crates/**/*.rt", recursive=True) + glob.glob("crates/*/must-fail/*.edit")
    for path in sources:
        text = re.sub(r"\bRattle\.log\.", "Rattle.catalog.", read(path))
        if not path.endswith(".antt"):
            text = re.sub(r"(?<![\w:.])log::", "catalog::", text)
        with open(path, "w", encoding="utf-8") as file:
            file.write(text)
    with open("crates.txt", encoding="utf-8") as file:
        lines = [line if line.startswith("#") else re.sub(r"\blog\b", "catalog", line) for line in file]
    with open("crates.txt", "w", encoding="utf-8") as file:
        file.writelines(lines)
    for path in ["docs/PROMISES.md", "docs/PROVING.md", "docs/DECISIONS.md", "docs/DIFFERENCES.md", "docs/BENCHMARK.md", "docs/RULES.md", "README.md"]:
        text = re.sub(r"(?<![\w/])log/(?=specs|proofs|src)", "catalog/", read(path)).replace("crates/log", "crates/catalog")
        text = re.sub(r"(?m)^\| log \|", "| catalog |", text)
        with open(path, "w", encoding="utf-8") as file:
            file.write(text)


def main():
    check = "--check" in sys.argv[1:]
    names = crates()
    files = sorted(glob.glob("crates/*/specs/**/*.antt", recursive=True) + glob.glob("crates/*/proofs/**/*.antt", recursive=True))
    own = set()
    for path in files:
        if is_law(path):
            own |= defined(read(path), names)
    change = respelling(own)
    shown = []
    for path in files:
        text = read(path)
        imported, other = imports(text, names)
        mine = {old: new for old, new in change.items() if old not in other and (is_law(path) or old in imported)}
        if "fromEnd" in text:
            mine |= ALONE.get(path, {})
        fall_together(path, text, mine, shown)
        if not check:
            with open(path, "w", encoding="utf-8") as file:
                file.write(respelled(text, mine))
    for path in sorted(glob.glob("crates/*/src/**/*.rt", recursive=True) + glob.glob("crates/*/must-fail/*.edit")):
        text = read(path)
        if not check:
            with open(path, "w", encoding="utf-8") as file:
                file.write(respelled_source(text, change))
    known = {change.get(name, name) for name in own}
    pages = {old: new if new in known else snake(old) for old, new in respelling(old_names(names) | own).items()}
    for path in sorted(glob.glob("docs/*.md") + ["README.md"]):
        if os.path.basename(path) == "PORT.md":
            continue
        text = read(path)
        if not check:
            with open(path, "w", encoding="utf-8") as file:
                file.write(re.sub(r"`[^`\n]*`", lambda q: TOKEN.sub(lambda m: pages.get(m.group(0), m.group(0)), q.group(0)), text))
    if not check:
        rename_crate()
    for line in shown:
        print(line)
    print(f"{len(change)} names respelled, {len(shown)} places where names fall together")
    return 1 if shown and check else 0


if __name__ == "__main__":
    sys.exit(main())
