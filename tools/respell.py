#!/usr/bin/env python3
"""Spells this repository's own names as today's Rattle spells them. Run once, at the top, after port.py.

Definitions, lemmas, fields, constructors and local names are in snake case, types and modules in upper camel case. A lemma that would then have
a definition's name in a file that cites both gets `_lem`. A capital that begins a name, as a sheet's letter, stays, and a dash joins it to the words
after it. Functions of src/, exported names, strings, inputs and outputs keep their names, and so does what a check makes or the library gives.
"""
import collections
import glob
import os
import re
import subprocess

OWN = "number text sheet sets table writer machine double_rows residue_rows run tangent plain claims gallop".split()
WORD = r"[^\s(){}.;,@\"«»\[\]\\`]+"
TOKEN = re.compile(r"--[^\n]*|\"(?:[^\"\\]|\\.)*\"|«[^»]*»|" + WORD)
DECLARED = re.compile(
    r"^\s*(?:(?:abbrev|unfoldable|pub|data|record) )*((?:" + WORD + r" )*?" + WORD + r")((?: (?:\([^:]*: .*?\)|\{[^:]*: .*?\}))*) : "
)
USE = re.compile(r"^(\s*(?:pub |ghost )*use )(\S+?)\.\{([^}]*)\}", re.M)
NOT_NAMES = {"=", "let", "in", "→", "λ", "|", "↦", "use", "module", "where"}


def read(path):
    with open(path, encoding="utf-8", newline="") as f:
        return f.read()


def write(path, text):
    with open(path, "w", encoding="utf-8", newline="") as f:
        f.write(text)


def antt_files():
    return sorted(p for part in ("specs", "proofs") for p in glob.glob(f"crates/*/{part}/**/*.antt", recursive=True))


def is_own(module):
    return re.match(r"Rattle\.(?:" + "|".join(OWN) + r")\.", module + ".") is not None


def is_generated(module):
    return re.search(r"\.(?:Tie|Lts|Code|Statement|Goals|Given|Reads|Met)(?:\.|$)|\.specs\.(?:declared|contracts)\.", module) is not None


def snake(name):
    if not re.search(r"[A-Za-z]-|[a-z0-9'₀-₉][A-Z]", name):
        return name
    if name[0].islower():
        name = re.sub(r"(?<=[a-z0-9'₀-₉])([A-Z])", lambda m: "_" + m.group(1).lower(), name)
        return re.sub(r"(?<=[A-Za-z0-9'₀-₉])-(?=[a-z0-9])", "_", name)
    if name[0].isupper() and "-" in name:
        first, rest = name.split("-", 1)
        return first + "-" + snake(rest).replace("-", "_")
    return name


def imported(text):
    """The names that a file's use lines bring in, each with whether they come from this repository."""
    out = {}
    for m in USE.finditer(text):
        for it in m.group(3).split(","):
            it = it.strip()
            if not it:
                continue
            own = is_own(m.group(2)) and not is_generated(m.group(2) + ".")
            if " as " in it:
                it, alias = it.split(" as ")
                out[alias.strip()] = True
            out[it.strip()] = own
    return out


def survey():
    declared, fields, holders = collections.defaultdict(set), set(), collections.defaultdict(set)
    for path in antt_files():
        text = read(path)
        for line in text.split("\n"):
            if line.lstrip().startswith(("--", "use ", "pub use ")):
                continue
            m = DECLARED.match(line)
            if m and not NOT_NAMES & set(m.group(1).split()):
                for name in m.group(1).split():
                    declared[name].add(path)
                    if line.startswith(" "):
                        fields.add(name)
        for m in TOKEN.finditer(text):
            holders[m.group(0)].add(path)
    return declared, fields, holders


def with_lem(declared, holders):
    """The lemmas that need `_lem`: a definition has the name, and some file says both."""
    by = collections.defaultdict(set)
    for name in declared:
        by[snake(name)].add(name)
    out = {}
    for plain, names in by.items():
        if len(names) < 2:
            continue
        definition = [n for n in names if re.search(r"[a-z0-9][A-Z]", n)] or [n for n in names if n == plain]
        for lemma in names - set(definition):
            if any(holders[lemma] & holders[d] for d in definition):
                out[lemma] = plain + "_lem"
    return out


def respell_antt(text, declared, fields, lem):
    brought = imported(text)

    def turn(m):
        name, at = m.group(0), m.start()
        if name.startswith(("--", '"', "«")):
            return name if not name.startswith("--") else in_comment(name, declared, lem)
        before = text[at - 1] if at else " "
        line = text[text.rfind("\n", 0, at) + 1 : text.find("\n", at)]
        if re.match(r"\s*(?:pub )?use ", line):
            return name  # turned below
        if before == ".":
            return snake(name) if name in fields else name
        if after_dot(text, m.end()) and name[0].isupper():
            return name
        if name in lem and brought.get(name, True):
            return lem[name]
        if brought.get(name) is False:
            return name
        return snake(name)

    def turn_use(m):
        if not is_own(m.group(2)) or is_generated(m.group(2) + "."):
            def alias(it):
                return re.sub(r" as (\S+)", lambda a: " as " + snake(a.group(1)), it)
            return m.group(1) + m.group(2) + ".{" + alias(m.group(3)) + "}"
        names = [it.strip() for it in m.group(3).split(",")]
        return m.group(1) + m.group(2) + ".{" + ", ".join(" as ".join(lem.get(w, snake(w)) for w in it.split(" as ")) for it in names) + "}"

    text = TOKEN.sub(turn, text)
    return USE.sub(turn_use, text)


def after_dot(text, at):
    return text[at : at + 1] == "."


def in_comment(text, declared, lem):
    return re.sub(r"`([^`\s]+)`", lambda m: "`" + (lem.get(m.group(1), snake(m.group(1))) if m.group(1) in declared else m.group(1)) + "`", text)


def respell_rt(text, declared, fields, lem):
    brought = imported(text)

    def turn_use(m):
        if not is_own(m.group(2)) or is_generated(m.group(2) + "."):
            return m.group(0)
        names = [it.strip() for it in m.group(3).split(",")]
        return m.group(1) + m.group(2) + ".{" + ", ".join(" as ".join(lem.get(w, snake(w)) for w in it.split(" as ")) for it in names) + "}"

    def turn(m):
        name, at = m.group(0), m.start()
        if name.startswith(('"', "«")):
            return name
        if text[at - 1 : at] == ".":
            return snake(name) if name in fields and re.search(r"[a-z][A-Z]", name) else name
        if brought.get(name):
            return lem.get(name, snake(name))
        if name in declared and re.match(r"[a-z]\w*[A-Z]", name):
            return snake(name)
        return name

    lines = []
    for line in text.split("\n"):
        code, slash, comment = line.partition("//")
        lines.append((code, slash + in_comment(comment, declared, lem)))
    text = "\n".join(c + r for c, r in lines)

    def code_only(m):
        return m.group(0) if m.group(0).startswith("//") else turn(m)

    rt_token = re.compile(r"//[^\n]*|\"(?:[^\"\\]|\\.)*\"|«[^»]*»|" + r"[^\s(){}.;,@\"«»\[\]\\`:&!?*<>=+]+")
    text = rt_token.sub(code_only, text)
    return USE.sub(turn_use, text)


def main():
    declared, fields, holders = survey()
    lem = with_lem(declared, holders)
    for path in antt_files():
        text = read(path)
        new = respell_antt(text, declared, fields, lem)
        if new != text:
            write(path, new)
    rts = sorted(glob.glob("crates/*/src/**/*.rt", recursive=True)) + sorted(glob.glob("crates/*/must-fail/*.edit"))
    for path in rts:
        text = read(path)
        new = respell_rt(text, declared, fields, lem)
        if new != text:
            write(path, new)
    for path in ["README.md"] + sorted(glob.glob("docs/**/*.md", recursive=True)):
        text = read(path)
        new = in_comment(text, declared, lem)
        if new != text:
            write(path, new)
    modules()
    for name in sorted(lem):
        print(f"{name} -> {lem[name]}")


def modules():
    """`inner` is a module: Inner."""
    for path in sorted(glob.glob("crates/*/specs/inner.antt")):
        subprocess.run(["git", "mv", path, path.replace("inner.antt", "Inner.antt")], check=True)
        subprocess.run(["git", "mv", path[: -len(".antt")], os.path.join(os.path.dirname(path), "Inner")], check=True)
    for path in antt_files() + sorted(glob.glob("crates/*/src/**/*.rt", recursive=True)) + sorted(glob.glob("crates/*/must-fail/*.edit")):
        text = read(path)
        new = re.sub(r"(Rattle\.\w+\.specs\.)inner(?=[.\s{])", r"\1Inner", text)
        new = re.sub(r"(?m)^pub mod inner$", "pub mod Inner", new)
        new = re.sub(r"(?m)^file: specs/inner", "file: specs/Inner", new)
        if new != text:
            write(path, new)
    for path in ["README.md"] + sorted(glob.glob("docs/**/*.md", recursive=True)):
        text = read(path)
        new = text.replace("specs/inner", "specs/Inner")
        if new != text:
            write(path, new)


if __name__ == "__main__":
    main()
