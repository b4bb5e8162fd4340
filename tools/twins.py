"""Lists functions of crates/*/src that are alike: bodies that differ only in names, types and numbers, and functions
that only pass their arguments on to another. Usage: python3 tools/twins.py [TOP]"""
import collections
import pathlib
import re
import sys

HEAD = re.compile(r"^( *)(?:pub(?:\(crate\))? )?fn (\w+)", re.M)


def functions(text):
    """Name, parameters and body of each function outside tests, with no comments and no clauses."""
    text = re.sub(r"//[^\n]*", "", text.split("#[cfg(test)]")[0])
    for m in HEAD.finditer(text):
        end = text.find("\n" + m[1] + "}", m.start())
        part = text[m.start():end]
        start = part.find("\n" + m[1] + "{")
        if start < 0:
            continue
        inner = part.find("(") + 1
        names = re.findall(r"(\w+):", part[inner:start].split("->")[0].split(" requires ")[0].split(" ensures ")[0])
        yield m[2], names, " ".join(part[start + len(m[1]) + 2:].split())


def shape(body):
    body = re.sub(r"\b(?!(?:if|else|match|for|in|return|let|mut|while|self|Self|Some|None|Ok|Err|true|false)\b)[A-Za-z_]\w*", "x", body)
    return re.sub(r"\bx(?:::x)*", "x", re.sub(r"\b[\d_]+\b", "0", body))


top = pathlib.Path(sys.argv[1] if len(sys.argv) > 1 else ".")
groups, passing = collections.defaultdict(list), []
for path in sorted(top.glob("crates/*/src/**/*.rt")):
    for name, params, body in functions(path.read_text()):
        place = f"{path.relative_to(top)}: {name}"
        if len(body) > 12:
            groups[shape(body)].append(place)
        call = re.fullmatch(r"(?:self\.)?[\w:]+\(([\w, &]*)\)", body)
        if call and re.findall(r"\w+", call[1]) == [p for p in params if p != "self"]:
            passing.append(place)
for body, places in sorted(groups.items(), key=lambda g: g[1]):
    if len(places) > 1:
        print(f"ALIKE {len(places)}: " + "; ".join(places) + f"\n    {body[:150]}")
for place in passing:
    print("PASSES ON: " + place)
