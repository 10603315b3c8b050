#!/usr/bin/env python3
"""Brings the names that this repository declares in specs/ and proofs/ to the spelling of today's library.

Functions, fields, constructors and lemmas are in snake case; a fact, which is a name whose type ends in `Type 0`, is in
upper camel case; a dash stays only in a lemma, between two names of functions. Names from src/, text in quotes, inputs and
outputs keep their spelling. Run once at the top, after /opt/rattle/port/port.py; it prints each name that it turned.
"""
import glob
import re
import sys

LETTER = r"[^\s(){}\[\].,;:\"«»⌜⌝∥λ∷⟨⟩]"
# std's functions that begin the name of a lemma of ours
STD = {"length", "map", "take", "drop", "append", "mod", "add", "mul", "sub", "codes", "replicate", "get_or", "set", "xor", "bit_xor"}
# laws that std has under the same name
AS_IN_STD = {"add-zero", "mul-add", "mul-inv", "mul-one", "one-mul", "sub-add", "zero-add"}
# a lemma of field/specs/Products, whose name would fall together with std's function
APART = {"bit-xor": "low_bit_xor", "getD-count-from": "get_or-count_from"}


def text_of(path):
    with open(path, encoding="utf8") as f:
        return f.read()


def declared(path):
    """Each name that a file declares: (name, kind, signature)."""
    lines = text_of(path).split("\n")
    inside = None
    for n, line in enumerate(lines):
        if line.lstrip().startswith("--") or not line.strip():
            continue
        m = re.match(r"(\s*)((?:unfoldable |abbrev |pub |data |record |ruleset )*)(" + LETTER + r"+)\s*(?:[({][^:]*:[^:]*[)}]\s*)*:\s*(.*)$", line)
        if not m:
            if not line.startswith(" "):
                inside = None
            continue
        indent, marks, name, rest = m.groups()
        if name in ("use", "module", "mutual", "let", "in", "where", "_"):
            continue
        if not indent:
            inside = "data" if "data" in marks else "record" if "record" in marks else None
        if "let" in line.split(":")[0].split():
            continue
        if inside == "record" and indent:
            yield name, "field", rest
        elif inside == "data" and indent:
            yield name, "constructor", rest
        elif "abbrev" in marks or "unfoldable" in marks:
            yield name, "definition", rest
        else:
            yield name, "lemma", rest


def snake(name):
    name = re.sub(r"(?<=[a-z])([A-Z])", lambda m: "_" + m.group(1).lower(), name)
    return name.replace("-", "_").replace("′", "'")


def camel(name):
    return "".join(w[:1].upper() + w[1:] for w in re.split(r"[-_]", name))


def lemma(name, functions):
    """A dash stays between two functions' names; other dashes turn."""
    parts = name.split("-")
    known = {f.replace("_", "-"): f for f in functions}
    out, i = [], 0
    while i < len(parts):
        for k in range(len(parts), i, -1):
            piece = "-".join(parts[i:k])
            if piece in known:
                out.append((snake(piece), True))
                i = k
                break
        else:
            out.append((snake(parts[i]), False))
            i += 1
    text = out[0][0]
    for (a, fa), (b, fb) in zip(out, out[1:]):
        text += ("-" if fa and fb else "_") + b
    return text


def mapping():
    found = {}
    for path in sorted(glob.glob("crates/*/specs/*.antt") + glob.glob("crates/*/proofs/*.antt")):
        for name, kind, rest in declared(path):
            found.setdefault(name, []).append((kind, rest, path))
    functions = set(STD)
    for name, uses in found.items():
        if any(k == "definition" for k, _, _ in uses):
            functions.add(name)
    turned = {}
    for name, uses in found.items():
        if name in AS_IN_STD:
            continue
        kinds = {k for k, _, _ in uses}
        fact = any(k == "definition" and re.search(r"(^|→ )Type 0$", r.strip()) for k, r, _ in uses)
        if not re.search(r"-|[a-z][A-Z]|′", name) and not (fact and name[0].islower()):
            continue
        if name[0].isupper() and "-" not in name:
            continue
        if name in APART:
            new = APART[name]
        elif fact:
            new = camel(name)
        elif kinds == {"lemma"}:
            new = lemma(name, functions)
        else:
            new = snake(name)
        if new != name:
            turned[name] = new
    return turned, found


def turn(text, turned, pattern, path):
    """Turns the names outside of quotes: in a comment those with a dash alone, on a page those in code marks alone."""
    new = lambda m: turned[m.group(0)]
    dashed = lambda m: new(m) if "-" in m.group(0) else m.group(0)
    if path.endswith(".md"):
        return re.sub(r"`[^`\n]*`", lambda m: pattern.sub(new, m.group(0)), text)
    out = []
    for line in text.split("\n"):
        if line.lstrip().startswith(("--", "//")):
            out.append(pattern.sub(dashed, line))
            continue
        parts = re.split(r"(\"[^\"]*\")", line)
        out.append("".join(p if i % 2 else pattern.sub(new, p) for i, p in enumerate(parts)))
    return "\n".join(out)


def main():
    turned, found = mapping()
    edge = r"[\w\-'′·]"
    names = sorted(turned, key=len, reverse=True)
    pattern = re.compile(r"(?<!%s)(%s)(?!%s)" % (edge, "|".join(map(re.escape, names)), edge))
    files = [p for g in ("crates/*/specs/**/*.antt", "crates/*/proofs/**/*.antt", "crates/*/src/*.rt", "docs/*.md", "README.md") for p in glob.glob(g, recursive=True)]
    back = {}
    for old, new in sorted(turned.items()):
        back.setdefault(new, []).append(old)
        print(old, "->", new)
    for new, olds in sorted(back.items()):
        if len(olds) > 1 or new in found:
            print("falls together:", new, olds, [p for _, _, p in found.get(new, [])], file=sys.stderr)
    for path in sorted(files):
        text = text_of(path)
        if path == "crates/field/specs/Polynomials.antt":
            # what port.py left of std's function
            text = text.replace("bit-xor", "bit_xor")
        before = set(re.findall(r"(?<!%s)[\w][\w\-']*" % edge, text))
        for new in sorted(set(turned[m.group(0)] for m in pattern.finditer(text)) & before):
            print("stands already:", path, new, file=sys.stderr)
        if "--write" in sys.argv:
            new_text = turn(text, turned, pattern, path)
            if new_text != text_of(path):
                with open(path, "w", encoding="utf8") as f:
                    f.write(new_text)


main()
