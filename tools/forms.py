#!/usr/bin/env python3
"""Lists the places in src/ that have the forms of an older Rattle, point by point (docs/DESIGN-PASS.md), and counts them.

    python3 tools/forms.py [FOLDER]     FOLDER holds crates/ (default: this repository)
"""
import collections, difflib, glob, os, re, sys

top = sys.argv[1] if len(sys.argv) > 1 else os.path.join(os.path.dirname(os.path.abspath(__file__)), "..")
files = sorted(glob.glob(os.path.join(top, "crates/*/src/*.rt")))
text = {os.path.relpath(f, os.path.join(top, "crates")).replace("/src", ""): open(f).read() for f in files}


def code(s):
    """The text without comments and ghost imports, line for line."""
    return "\n".join("" if re.match(r"\s*(//|ghost use)", line) else line for line in s.split("\n"))


def lines(pattern):
    found = []
    for name, s in text.items():
        for n, line in enumerate(code(s).split("\n"), 1):
            if re.search(pattern, line):
                found.append(f"{name}:{n}: {line.strip()}")
    return found


def items(kind):
    """(file, line, name, body) of each struct or enum."""
    for name, s in text.items():
        for m in re.finditer(rf"^(?:pub )?{kind} (\w+)[^\n]*\{{\n(.*?)^\}}", code(s), re.M | re.S):
            yield name, s[: m.start()].count("\n") + 1, m.group(1), m.group(2)


def functions():
    """(file, line, name, head, body) of each function: the head has parameters and clauses."""
    for name, s in text.items():
        all_lines = code(s).split("\n")
        for at, line in enumerate(all_lines):
            start = re.match(r"( *)(?:pub )?(?:const )?(?:extern \"C\" )?fn (\w+)", line)
            if not start:
                continue
            indent, head = start.group(1), at
            while head < len(all_lines):
                here = all_lines[head]
                if here == indent + "{" or (here.endswith("{") and re.match(indent + r"((pub |extern |const |fn )|\))", here)):
                    break
                if here.endswith(";") and (head == at or here.startswith(indent + "    ensures") or here.startswith(indent + ")")):
                    break  # a trait's function without a body
                head += 1
            end = head
            while end + 1 < len(all_lines) and not all_lines[end].startswith(indent + "}"):
                end += 1
            if head < len(all_lines) and all_lines[head].endswith("{"):
                yield name, at + 1, start.group(2), "\n".join(all_lines[at : head + 1]), "\n".join(all_lines[head + 1 : end])


def shaped():
    """Enums of two variants, of which one at least has a value."""
    for name, n, enum, body in items("enum"):
        variants = [v for v in re.findall(r"^    (\w+[^\n]*),$", body, re.M)]
        if len(variants) == 2 and any("(" in v for v in variants):
            yield f"{name}:{n}: enum {enum}"


def flagged():
    """Structs in which a bool, a refusal's number or a word says whether or how the other fields count."""
    for name, n, struct, body in items("struct"):
        fields = re.findall(r"^    (?:pub )?(\w+): ([^\n]*),$", body, re.M)
        marks = [f for f, t in fields if t == "bool" or f in ("refusal", "word")]
        if marks and len(fields) > 1:
            yield f"{name}:{n}: struct {struct}: {', '.join(marks)}"


def coded():
    """Functions that answer the number of a refusal, 0 for none; variants that hold one; matches on the numbers of words."""
    for name, n, f, head, body in functions():
        if re.search(r"-> u8\s", head) and re.search(r"refusal|^write$|^convert$|^count_at$", f):
            yield f"{name}:{n}: fn {f} -> u8"
    yield from lines(r"^    (Refused|Cause)\(u(8|64)\),")
    for name, n, f, head, body in functions():
        if re.search(r"match (word|number|kind|set) ", body) and re.search(r"^\s+(\d+|b'.')( \| \d+)* => ", body, re.M):
            yield f"{name}:{n}: fn {f}: a match on numbers"
        elif re.search(r"if (set|kind|c\.word) == ", body) or re.search(r"\bplace\[0\] == ", body):
            yield f"{name}:{n}: fn {f}: a test of a kind's number"


def plain(body):
    """A body with S for each string, N for each number and I for each other name."""
    body = re.sub(r'b?"[^"]*"', "S", body)
    body = re.sub(r"\b(?!let\b|mut\b|if\b|else\b|return\b|while\b|for\b|in\b|match\b|true\b|false\b|as\b)[A-Za-z_]\w*\b", "I", body)
    return re.sub(r"\s+", " ", re.sub(r"\b\d+\b", "N", body))


def twins():
    """Functions whose bodies are the same but for names and numbers; and functions of one name in two crates with much the same body."""
    groups, named = collections.defaultdict(list), collections.defaultdict(list)
    for name, n, f, head, body in functions():
        if len(re.findall(r"\w+", plain(body))) >= 8:
            groups[plain(body)].append(f"{name}:{n}: fn {f}")
        if not re.search(r"^(main|new|from|answer)$", f):
            named[f].append((name, n, body))
    found = [set(same) for same in groups.values() if len(same) > 1]
    for f, places in named.items():
        near = set()
        for i, (name, n, body) in enumerate(places):
            for other, m, its in places[i + 1 :]:
                words = [re.findall(r"\w+|[^\w\s]", x) for x in (body, its)]
                if name.split("/")[0] != other.split("/")[0] and difflib.SequenceMatcher(None, *words).ratio() > 0.6:
                    near |= {(name, n), (other, m)}
        same = {f"{name}:{n}: fn {f}" for name, n in near}
        if len(same) > 1 and not any(same <= other for other in found):
            found = [other for other in found if not other <= same] + [same]
    for same in found:
        yield " ~ ".join(sorted(same))


def by_hand():
    """Tests, copies and conversions that are written out variant by variant or octet by octet."""
    for name, n, f, head, body in functions():
        if re.search(r"=> (true|false),", body):
            yield f"{name}:{n}: fn {f}: a test by cases"
        elif len(re.findall(r"\[\d+\]", body)) >= 6:
            yield f"{name}:{n}: fn {f}: octet by octet"
        elif len(re.findall(r"% 256|\* 256", body)) >= 2:
            yield f"{name}:{n}: fn {f}: digits by hand"
        elif re.search(r"^\s+\d+ => \w+::\w+,", body, re.M) or len(re.findall(r"^\s+\w+::\w+(?:\(\w+\))? => (?:\w+::\w+|\d+)(?:\(\w+\))?,", body, re.M)) >= 2:
            yield f"{name}:{n}: fn {f}: a conversion by cases"
    yield from lines(r"fn (from_octets|to_octets|wide)\(")


def facts():
    """Facts of one parameter in the requires of three functions or more of the repository."""
    count = collections.Counter()
    for name, n, f, head, body in functions():
        asked = " × ".join(re.findall(r"requires (?:\w+ )?\{(.*?)\}\s*(?=requires|ensures|\{$)", head, re.S))
        for fact in {re.sub(r"\s+", " ", x).strip(" ()") for x in re.split(r"×", asked)}:
            if fact:
                count[re.sub(r"\((\w+_of) (\w+)\.(\w+)\)", r"(\1 \2.\3)", fact)] += 1
    for fact, k in count.most_common():
        if k >= 3:
            yield f"{k} functions: requires {fact}"


def together():
    """Pairs of parameters that stand in five signatures or more, and mostly together."""
    pairs, single = collections.Counter(), collections.Counter()
    for name, n, f, head, body in functions():
        signature = re.split(r"requires|ensures|->", head)[0].split("(", 1)[1]
        params = sorted(set(p.strip() for p in re.findall(r"\w+: [^,()]*(?:\[[^\]]*\])?", signature)))
        single.update(params)
        pairs.update((a, b) for i, a in enumerate(params) for b in params[i + 1 :])
    for (a, b), k in pairs.most_common():
        if k >= 5 and k * 4 >= 3 * min(single[a], single[b]):
            yield f"{k} functions: {a}, {b}"


def buffers():
    """Structs of an array with its length, or of arrays of one length."""
    for name, n, struct, body in items("struct"):
        arrays = re.findall(r"^    (?:pub )?(\w+): \[\w+; ([^\]]*)\],$", body, re.M)
        sizes = [s for _, s in arrays]
        if re.search(r"^    (?:pub )?(size|held|used|len|count): (u8|usize),$", body, re.M) and (arrays or ": Queue," in body):
            yield f"{name}:{n}: struct {struct}: an array and its length"
        if any(k > 1 for k in collections.Counter(s for s in sizes if s.startswith("MOST")).values()):
            yield f"{name}:{n}: struct {struct}: arrays of one length"


def switches():
    """Matches on a number, each arm of which runs another step; tables of functions."""
    for name, n, f, head, body in functions():
        arms = re.findall(r"^\s+(?:\d+(?: \| \d+)*|_) => [\w:]+\(", body, re.M)
        if len(arms) >= 3:
            yield f"{name}:{n}: fn {f}: {len(arms)} arms"
    yield from lines(r"\[fn\(|&dyn Fn|: fn\(")


points = [
    ("1a", "own enums of the shape of Option or Result", shaped()),
    ("1b", "a flag, a refusal's number or a word with values beside it", flagged()),
    ("1c", "numbers for kinds or refusals", coded()),
    ("2", "twins", twins()),
    ("3", "loops that count by hand", lines(r"^\s*('\w+: )?while ")),
    ("4", "equality, copying and conversion by hand", by_hand()),
    ("5a", "facts in three contracts or more", facts()),
    ("5b", "parameters that travel together", together()),
    ("6", "buffers with a length beside them, parallel arrays", buffers()),
    ("7", "switches on the step to run", switches()),
]
for point, what, found in points:
    found = list(found)
    print(f"\n{point} {what}: {len(found)}")
    for place in found:
        print("   ", place)
answers = glob.glob(os.path.join(top, "crates/*/proofs/*/**/Answers.antt"), recursive=True)
print(f"\n8 answers of functions in proofs/: {len(answers)}")
