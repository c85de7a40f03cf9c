#!/usr/bin/env python3
"""Places in src/ of the forms that docs/DESIGN-PASS.md counts.

usage: tools/places.py [POINT]     prints each place of a point, 1 to 7, and how many there are; without a point, the counts alone
       tools/places.py facts       prints each fact that stands in the requires of three functions or more, and in how many

It reads text, not meaning: a place that is printed is one to look at.
"""
import collections
import glob
import re
import sys

TYPE = re.compile(r"^(?:pub )?(enum|struct) (\w+)[^{;(]*\{\n(.*?)^\}", re.M | re.S)
FUNCTION = re.compile(r"^(?:pub )?(?:extern \"C\" )?fn (\w+)(.*?)^\}", re.M | re.S)


def sources():
    for path in sorted(glob.glob("crates/*/src/*.rt")):
        yield path.replace("crates/", "", 1).replace("/src/lib.rt", "").replace("/src/", "/"), open(path).read()


def is_program(name):
    return "_vectors" in name or name in ("words", "vectors", "list/main.rt")


def is_face(name):
    return name.startswith("c_")


def functions(text):
    for m in FUNCTION.finditer(text):
        head, _, body = m[2].partition("\n{\n")
        yield m[1], head, body


def variants(body):
    """The variants of an enum, each with what it holds."""
    body = re.sub(r"//.*", "", body)
    out, depth, item = [], 0, ""
    for c in body:
        depth += (c in "({<") - (c in ")}>")
        if c == "," and depth == 0:
            out.append(item.strip())
            item = ""
        else:
            item += c
    return [v for v in out + [item.strip()] if v]


def shapes():
    """Point 1: enums of the shape of Option or Result, a flag beside a value, numbers for kinds."""
    for name, text in sources():
        for m in TYPE.finditer(text):
            if m[1] == "enum":
                vs = variants(m[3])
                held = [v for v in vs if "(" in v or "{" in v]
                refusal = [v for v in vs if "(Refusal)" in v]
                bare = [v for v in vs if v not in held]
                if refusal or len(held) == 1 and len(bare) == 1 or len(held) == 1 and bare and "Malformed" in bare:
                    yield f"{name}: enum {m[2]}"
            elif re.search(r"pub (moved|there|found|tagged): bool", m[3]):
                yield f"{name}: struct {m[2]}"
        if not is_face(name) and not is_program(name):
            for f, head, _ in functions(text):
                if re.search(r"(status|there|repeated): &mut", head):
                    yield f"{name}: fn {f}, a flag or a number by reference"
            for m in re.finditer(r"^const (\w+): usize = \d;$", text, re.M):
                yield f"{name}: const {m[1]}, a number for a kind"


def plain(body):
    """A body with its numbers, types and constants blotted out."""
    body = re.sub(r"//.*", "", body)
    body = re.sub(r"\b(u8|u32|u64|usize|i32)\b", "T", body)
    body = re.sub(r"\b(0x)?[0-9A-F_]+\b", "N", body)
    return re.sub(r"\s+", " ", body)


def renamed(head, body):
    """The same with the parameters and locals numbered in the order in which they come."""
    text = plain(re.sub(r"(requires|ensures)\b.*", "", head, flags=re.S) + "{" + body)
    order = {}
    local = set(re.findall(r"(\w+): ", text)) | set(re.findall(r"let (?:mut )?(\w+)", text))
    return re.sub(r"\b\w+\b", lambda m: f"v{order.setdefault(m[0], len(order))}" if m[0] in local else m[0], text)


def twins():
    """Point 2: functions that differ only in a type, a size, a constant or names."""
    seen = collections.defaultdict(list)
    for name, text in sources():
        for f, head, body in functions(text):
            if body.strip().count("\n") >= 1 and not name.endswith("_c"):
                seen[renamed(head, body)].append(f"{name}::{f}")
    for fs in seen.values():
        if len(fs) > 1:
            yield ", ".join(fs)


def loops():
    """Point 3: loops that step a count by hand."""
    for name, text in sources():
        for f, _, body in functions(text):
            for m in re.finditer(r"^( *)(?:while [^\n]*|loop) \{\n(.*?)^\1\}", body, re.M | re.S):
                inner = re.sub(r"^( *)while [^\n]*\n.*?^\1\}", "", m[2], flags=re.M | re.S)
                if re.search(r"^ *\w+ [+-]= \d+;$", inner, re.M):
                    yield f"{name}::{f}"


def by_hand():
    """Point 4: comparison, conversion or the lesser and greater of two, written out."""
    for name, text in sources():
        for f, head, body in functions(text):
            b = re.sub(r"\s+", " ", body).strip()
            if re.fullmatch(r"\w+ as \w+", b):
                yield f"{name}::{f}, a conversion"
            elif re.fullmatch(r"if (\w+) < (\w+) \{ return (\w+); \} (\w+)", b):
                yield f"{name}::{f}, the lesser or greater of two"
            elif re.fullmatch(r"if \w+ \{ return 1; \} 0", b):
                yield f"{name}::{f}, a flag as a number"
            elif re.fullmatch(r"if (\w+) \{ return true; \} \w+", b):
                yield f"{name}::{f}, one of two flags"
            elif re.search(r"match \w+ \{ (\w+::)?\w+\(\w+\) => match", b):
                yield f"{name}::{f}, equality"


def together():
    """Point 5: parameters that travel together through three functions or more; its facts are counted by `facts`."""
    groups = [("start", "end", "count"), ("left_steps", "right_steps", "mode"),
              ("track_gain", "track_peak", "album_gain", "album_peak", "algorithm"), ("front", "from", "to")]
    for name, text in sources():
        if is_face(name) or is_program(name):
            continue
        for f, head, _ in functions(text):
            names = re.findall(r"(\w+): ", head.partition("->")[0])
            for g in groups:
                if all(n in names for n in g):
                    yield f"{name}::{f}: {', '.join(g)}"


def conjuncts(text):
    """The facts of a clause that are joined by the product sign, without the brackets around each."""
    out, depth, item = [], 0, ""
    for c in text:
        depth += (c in "({[") - (c in ")}]")
        if c == "×" and depth == 0:
            out.append(item)
            item = ""
        else:
            item += c
    for fact in out + [item]:
        fact = " ".join(fact.split())
        while fact.startswith("(") and fact.endswith(")"):
            fact = fact[1:-1].strip()
        if fact:
            yield fact


def facts():
    """Point 5: facts that the requires of three functions or more share, whatever they call what they speak of."""
    where = collections.defaultdict(set)
    for name, text in sources():
        if is_face(name) or is_program(name):
            continue
        for f, head, _ in functions(text):
            params = set(re.findall(r"(\w+): ", re.split(r"\brequires\b|\bensures\b", head)[0]))
            for m in re.finditer(r"\brequires\b[^{]*\{(.*?)\}\n", head, re.S):
                for fact in conjuncts(m[1]):
                    where[re.sub(r"\b\w+\b", lambda w: "_" if w[0] in params else w[0], fact)].add(f"{name}::{f}")
    for fact, fs in sorted(where.items(), key=lambda x: -len(x[1])):
        if len(fs) >= 3:
            yield f"{len(fs)}  {fact}"


def beside():
    """Point 6: a buffer with its length beside it, and parallel arrays."""
    for name, text in sources():
        for m in TYPE.finditer(text):
            if m[1] == "struct" and re.search(r"\blen: usize", m[3]) and re.search(r": \[u8; \w+\]", m[3]):
                yield f"{name}: struct {m[2]}"
        for f, _, body in functions(text):
            if re.search(r"&\w+\[0\.\.n\]", body) and ".len;" in body:
                yield f"{name}::{f}, a text taken apart"


def switches():
    """Point 7: a parameter that says which step to run."""
    for name, text in sources():
        for f, head, body in functions(text):
            if re.match(r"\s*match (what|kind|mode) \{", body):
                yield f"{name}::{f}"


POINTS = {1: shapes, 2: twins, 3: loops, 4: by_hand, 5: together, 6: beside, 7: switches}


def main():
    if len(sys.argv) > 1:
        point = facts if sys.argv[1] == "facts" else POINTS[int(sys.argv[1])]
        places = list(point())
        print("\n".join(places))
        print(f"{len(places)} places")
        return
    for k, point in POINTS.items():
        print(k, len(list(point())))


if __name__ == "__main__":
    main()
