#!/usr/bin/env python3
"""Brings the definitions and lemmas of this repository to the spelling of today's Rattle, after the kit's port.py has run on it.

usage: tools/respell.py              in the repository, once: crates/*/specs, crates/*/proofs, the clauses of crates/*/src, crates.txt

Words that stood in camel case or with dashes are in snake case; a lemma that would have its function's name gets `_lem`. The crate `hex`
is `hex_digits`, since the kit has a library `hex`; the module `runs/specs/Contracts` is `Promises`, since Rattle makes a module `contracts`.
Functions of src/, exported names, strings, inputs and outputs stay.
"""
import os
import re
import subprocess
import sys

TOKEN = re.compile(r"(?<![\w'*-])[A-Za-z][\w'*-]*")
DECLARED = re.compile(r"\s*(?:(?:abbrev|unfoldable|pub|private)\s+)*([^\s:(){}]+(?:\s+[^\s:(){}]+)*)\s+:(?:\s|$)")

# Lemmas that port.py has brought to the name that a function of ours gets.
LEMMAS = {name: name + "_lem" for name in ("next_word", "read_vector", "write_vector", "in_order", "keys_on")}

RENAMED_CRATES = {"hex": "hex_digits"}


def antt_files(root):
    for folder, dirs, files in os.walk(os.path.join(root, "crates")):
        dirs[:] = sorted(d for d in dirs if d not in ("out", "must-fail"))
        for name in sorted(files):
            if name.endswith(".antt"):
                yield os.path.join(folder, name)


def rattle_files(root):
    for folder, dirs, files in os.walk(os.path.join(root, "crates")):
        dirs[:] = sorted(d for d in dirs if d not in ("out", "must-fail"))
        for name in sorted(files):
            if name.endswith(".rt"):
                yield os.path.join(folder, name)


def read(path):
    with open(path, encoding="utf-8") as f:
        return f.read()


def code_of(line):
    """The line without its comment."""
    m = re.search(r"(?:^|\s)--(?:\s|$)", line)
    return line[: m.start()] if m else line


def snake(name):
    name = re.sub(r"([a-z0-9])([A-Z])", r"\1_\2", name)
    return re.sub(r"([A-Z])([A-Z][a-z])", r"\1_\2", name).lower()


def is_camel(name):
    return bool(re.match(r"[a-z]", name) and re.search(r"[a-z0-9][A-Z]", name))


def declared(root):
    """Names that files of this repository give: definitions, fields, parameters and locals."""
    every = set()
    for path in antt_files(root):
        for line in read(path).split("\n"):
            code = code_of(line)
            m = DECLARED.match(code)
            if m and not re.match(r"\s*(pub )?(use|mod|module|record|data|open) ", code):
                every |= set(m.group(1).split())
            for m in re.finditer(r"[({]\s*([^():{}=.]+?)\s+:\s", code):
                every |= set(m.group(1).split())
            for m in re.finditer(r"\blet ([^\s:=]+)", code):
                every.add(m.group(1))
            for m in re.finditer(r"λ ([^.:(]+)\.", code):
                every |= set(m.group(1).split())
            for m in re.finditer(r"\bas ([^\s,}]+)", code):
                every.add(m.group(1))
            for m in re.finditer(r"use \{([^}]*)\}", code):
                every |= {w.split(" as ")[-1].strip() for w in m.group(1).split(",")}
    return every


def functions(root):
    names = set()
    for path in rattle_files(root):
        names |= set(re.findall(r"\bfn ([a-z_0-9]+)", read(path)))
    return names


def table(root):
    """Old name -> new name, over all files."""
    every = declared(root)
    rust = functions(root)
    names, labels = {}, {}
    for path in antt_files(root):
        for line in read(path).split("\n"):
            for t in TOKEN.findall(code_of(line)):
                if t in names or t in labels or not re.match(r"[a-z]", t):
                    continue
                if is_camel(t):
                    names[t] = snake(t)
                elif "-" in t:
                    if t in every:
                        names[t] = snake(t).replace("-", "_")
                    elif t.replace("-", "_") in rust or re.sub(r"\d+$", "", t.replace("-", "_")) in rust:
                        labels[t] = t.replace("-", "_")  # a call's label has the function's name
    for path in rattle_files(root):
        for t in TOKEN.findall(read(path)):
            if is_camel(t) and t not in names:
                names[t] = snake(t)
    # names that fall together where one file has both
    for path in antt_files(root):
        text = read(path)
        ghost = imported_from_kit(text)
        seen = {}
        for line in text.split("\n"):
            code = code_of(line)
            for m in TOKEN.finditer(code):
                t = m.group(0)
                if code[: m.start()].endswith(".") or not re.match(r"[a-z]", t):
                    continue
                seen.setdefault(t if t in ghost else names.get(t, t), set()).add(t)
        for target, sources in seen.items():
            if len(sources) > 1:
                for t in sources:
                    if "-" in t and t not in ghost:
                        names[t] = snake(t).replace("-", "_") + "_lem"
                if sum("-" not in t and t not in LEMMAS for t in sources) > 1:
                    print("look: " + path + ": " + ", ".join(sorted(sources)) + " are all " + target, file=sys.stderr)
    return {a: b for a, b in {**labels, **names, **LEMMAS}.items() if a != b}


def imported_from_kit(text):
    """Names that a file takes from the kit's modules."""
    names = set()
    for m in re.finditer(r"use ((?:Prim|mathlib|native|lib|borrow|logic|cat|Rattle\.(?:std|core))[\w.·]*)\.\{([^}]*)\}", text):
        names |= {w.split(" as ")[0].strip() for w in m.group(2).split(",")}
    return names


def respelled(text, names, keep):
    def one(m):
        t = m.group(0)
        if t in keep:
            return t
        return names.get(t, t)

    out = []
    for line in text.split("\n"):
        code = code_of(line)
        rest = line[len(code):]
        rest = TOKEN.sub(lambda m: names.get(m.group(0), m.group(0)) if is_camel(m.group(0)) else m.group(0), rest)
        out.append(TOKEN.sub(one, code) + rest)
    return "\n".join(out)


def crate_paths(text):
    for old, new in RENAMED_CRATES.items():
        text = re.sub(r"\bRattle\." + old + r"\.", "Rattle." + new + ".", text)
        text = re.sub(r"(?<![\w.])" + old + r"::", new + "::", text)
    return text.replace("Rattle.runs.specs.Contracts.", "Rattle.runs.specs.Promises.")


def main():
    root = subprocess.run(["git", "rev-parse", "--show-toplevel"], capture_output=True, text=True, check=True).stdout.strip()
    names = table(root)
    if "--table" in sys.argv:
        for a, b in sorted(names.items()):
            print(a, b)
        return
    for path in list(antt_files(root)):
        text = read(path)
        changed = crate_paths(respelled(text, names, imported_from_kit(text)))
        if changed != text:
            with open(path, "w", encoding="utf-8") as f:
                f.write(changed)
    camel = {a: b for a, b in names.items() if is_camel(a)}
    for path in list(rattle_files(root)):
        text = read(path)
        ghost = imported_from_kit(text)
        # a lemma's name stands in no code, and a word with a dash would be a difference there: camel case alone
        parts = re.split(r'("(?:[^"\\\n]|\\.)*")', text)  # what is not in a string
        parts[::2] = [TOKEN.sub(lambda m: m.group(0) if m.group(0) in ghost else camel.get(m.group(0), m.group(0)), t) for t in parts[::2]]
        changed = crate_paths("".join(parts))
        if changed != text:
            with open(path, "w", encoding="utf-8") as f:
                f.write(changed)
    for old, new in RENAMED_CRATES.items():
        subprocess.run(["git", "mv", f"crates/{old}", f"crates/{new}"], cwd=root, check=True)
        listed = os.path.join(root, "crates.txt")
        text = re.sub(r"(?m)(?<=[\s:])" + old + r"\b|^" + old + r"(?=:)", new, read(listed))
        with open(listed, "w", encoding="utf-8") as f:
            f.write(text)
    subprocess.run(["git", "mv", "crates/runs/specs/Contracts.antt", "crates/runs/specs/Promises.antt"], cwd=root, check=True)
    lib = os.path.join(root, "crates/runs/specs/Lib.antt")
    text = read(lib).replace("pub mod Contracts", "pub mod Promises")
    with open(lib, "w", encoding="utf-8") as f:
        f.write(text)


main()
