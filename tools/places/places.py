#!/usr/bin/env python3
"""Counts the places in src/ where an older form of code may stand, point by point.

    python3 tools/places/places.py [-l] [FOLDER]

FOLDER is a checkout, by default this one; -l lists each place as FILE:LINE. It goes by text, so a place is where to look, and
docs/DESIGN-PASS.md says of each whether it was changed or why it stays.
"""
import difflib, itertools, pathlib, re, sys

args = [a for a in sys.argv[1:] if a != "-l"]
listing = "-l" in sys.argv
root = pathlib.Path(args[0] if args else ".")
CRATES = "digits siphash keys masks sealing books avl tree cases passages vectors".split()
files = {f: f.read_text().split("\n") for c in CRATES for f in sorted((root / "crates" / c / "src").glob("*.rt"))}


def code(line):
    return line.split("//")[0]


def lines(pattern):
    return [(f, i) for f, ls in files.items() for i, l in enumerate(ls) if re.search(pattern, code(l)) and not l.lstrip().startswith("ghost use")]


def items(head):
    """(file, line, head, body) of each item that `head` opens, up to the brace that closes it."""
    for f, ls in files.items():
        for i, l in enumerate(ls):
            if re.match(head, l):
                text, depth = [], 0
                for j in range(i, len(ls)):
                    text.append(code(ls[j]))
                    depth += code(ls[j]).count("{") - code(ls[j]).count("}")
                    clause = re.match(r"\s*(requires|ensures)\b", ls[j]) and not ls[j].endswith(";")
                    if depth <= 0 and not clause and re.search(r"}\s*$|;\s*$", code(ls[j])):
                        break
                yield f, i, "\n".join(text)


FN = r"\s*(pub(\([a-z]+\))? )?fn \w+"


def functions():
    for f, i, text in items(FN):
        sig, clauses, body = [], [], []
        part = sig
        for l in text.split("\n"):
            s = l.strip()
            if part is not body and re.match(r"(requires|ensures)\b", s):
                clauses.append(s)
                part = clauses
            elif part is not body and (l.rstrip() == re.match(r"\s*", text)[0] + "{" or (part is sig and s.endswith("{"))):
                if part is sig:
                    sig.append(s)
                part = body
            elif part is sig:
                sig.append(s)
            elif part is body:
                body.append(s)
        yield f, i, " ".join(sig), clauses, body


def shaped_enums():
    for f, i, text in items(r"\s*(pub(\([a-z]+\))? )?enum \w+"):
        inner = text[text.index("{") + 1 : text.rindex("}")]
        variants = [v.strip() for v in re.sub(r"///.*", "", inner).split(",\n") if v.strip(" ,\n")]
        bare = [v for v in variants if re.fullmatch(r"\w+,?", v)]
        full = [v for v in variants if re.fullmatch(r"\w+\([^,]*\),?", v)]
        if len(variants) == 2 and len(full) >= 1 and len(bare) + len(full) == 2:
            yield f, i


def tokens(body):
    words = re.findall(r'b?"[^"]*"|\w+|[^\w\s]', " ".join(body))
    return ["0" if re.match(r'\d|b?"', w) else w for w in words]


def twins():
    alike = []
    fs = [(f, i, tokens(body)) for f, i, sig, clauses, body in functions()]
    fs = [x for x in fs if len(x[2]) >= 24]
    for (f, i, a), (g, j, b) in itertools.combinations(fs, 2):
        if abs(len(a) - len(b)) * 5 <= max(len(a), len(b)):
            if difflib.SequenceMatcher(None, a, b, autojunk=False).ratio() >= 0.8:
                alike.append((f, i, f"{g.relative_to(root)}:{j + 1}"))
    return alike


def types_alike():
    structs = []
    for f, i, text in items(r"\s*(pub(\([a-z]+\))? )?struct \w+"):
        inner = re.sub(r"pub(\([a-z]+\))? ", "", text)
        fields = set(re.findall(r"^\s*(\w+: [^,\n]+),", inner, re.M))
        if fields:
            structs.append((f, i, fields))
    return [
        (f, i, f"{g.relative_to(root)}:{j + 1}")
        for (f, i, a), (g, j, b) in itertools.combinations(structs, 2)
        if f.parts[-3] == g.parts[-3] and len(a & b) * 2 >= min(len(a), len(b))
    ]


def mirrored_arms():
    """Arms of one `match` that are alike but for the names in them."""
    found = []
    for f, i, sig, clauses, body in functions():
        arms = re.split(r"Ordering::(?:Less|Equal|Greater)(?: \| Ordering::\w+)* =>", " ".join(body))[1:]
        for a, b in itertools.combinations([tokens([x]) for x in arms], 2):
            if min(len(a), len(b)) >= 24 and difflib.SequenceMatcher(None, a, b, autojunk=False).ratio() >= 0.8:
                found.append((f, i, "two arms"))
    return found


def shared(groups, least):
    seen = {}
    for place, key in groups:
        seen.setdefault(key, []).append(place)
    return [(v[0][0], v[0][1], f"{k}, in {len(v)}") for k, v in seen.items() if len(set(v)) >= least]


def facts():
    for f, i, sig, clauses, body in functions():
        for c in clauses:
            fact = re.sub(r"^(requires|ensures)( \w+)? \{ | \}[;,]?$", "", c)
            fact = re.sub(r"\b(old|new|now)\b", "now", fact)
            yield (f, i), f"{f.relative_to(root).parts[1]}: {fact}"


def parameters():
    for f, i, sig, clauses, body in functions():
        inner = re.search(r"fn \w+(<[^(]*>)?\((.*?)\)( ->|\s|$)", sig)
        if inner:
            ps = [p.strip() for p in re.split(r",(?![^<\[(]*[>\])])", inner[2]) if ":" in p]
            names = [re.sub(r"\s+", " ", p) for p in ps]
            for a, b in itertools.combinations(names, 2):
                yield (f, i), f"{f.relative_to(root).parts[1]}: {a}, {b}"


POINTS = {
    "1 own enums shaped like Option or Result": list(shaped_enums()),
    "1 refusals by number in clauses": lines(r"^\s*(ensures|requires).*\b(numbered|refusal_number)\b"),
    "1 refusals by number in code": lines(r"\b(refusal|expected): u8\b|&\[u8\], u8\)"),
    "1 a bool beside or in place of a value": lines(r"\b\w+: bool\b"),
    "2 functions of one shape": twins(),
    "2 types of one shape": types_alike(),
    "2 arms of one shape": mirrored_arms(),
    "3 loops": lines(r"^\s*('\w+: )?(for|while|loop)\b(?! <)"),
    "3 of them by an index or a count": lines(r"^\s*('\w+: )?(for \w+ in .*\.\.|while (?!let))"),
    "4 comparison, copying and order by hand": lines(r"impl.* (PartialEq|Eq|Clone|Copy|PartialOrd|Ord|Hash|Debug)(<.*>)? for "),
    "4 conversion by hand": lines(r"fn (from_word|from_words|from_lowest|above_lowest|slot_of|option_of)\b"),
    "4 printing by hand": lines(r"fn (put_\w+|spell|meaning|told|trouble_told)\b"),
    "5 facts in three contracts or more": shared(facts(), 3),
    "5 parameters that travel together": shared(parameters(), 3),
    "6 memory with a count beside": lines(r"^\s*(pub(\(crate\))? )?(used|width|len|fresh|held|comparisons): (usize|u8|u16|u32),"),
    "6 arenas and searches by hand": lines(r"nodes: &'?a? ?mut \[Node|while low < high"),
    "7 steps chosen by a flag or a kind": lines(r"match (self\.|opening\.request\.)?(kind|source|store|request)\b|\bafter: bool\b"),
}

for point, found in POINTS.items():
    print(f"{len(found):4}  {point}")
    if listing:
        for place in found:
            print(f"        {place[0].relative_to(root)}:{place[1] + 1}" + (f"  {place[2]}" if len(place) > 2 else ""))
