#!/usr/bin/env python3
"""Lays what a reader believes side by side, as it stood at a commit and as it stands now.

    python3 tools/places/compare.py COMMIT

Prints, crate by crate, each public function, trait member, type and invariant of src/ whose signature or clauses changed, and each
definition and statement of specs/ that changed, was added or is gone, the old text before the new one.
"""
import pathlib, re, subprocess, sys

commit = sys.argv[1]
CRATES = "digits siphash keys masks sealing books avl tree cases passages vectors".split()


def old_files(folder, ending):
    listed = subprocess.run(["git", "ls-tree", "-r", "--name-only", commit, folder], capture_output=True, text=True).stdout.split()
    return {f: subprocess.run(["git", "show", f"{commit}:{f}"], capture_output=True, text=True).stdout for f in listed if f.endswith(ending)}


def new_files(folder, ending):
    return {str(f): f.read_text() for f in sorted(pathlib.Path(folder).rglob("*" + ending))}


def tidy(text):
    return re.sub(r"[ \t]+", " ", re.sub(r"\s*\n\s*", "\n", text)).strip()


def rust(text):
    """name -> signature and clauses, of what is public or belongs to a trait or a type"""
    found, lines, i, inside = {}, text.split("\n"), 0, ""
    while i < len(lines):
        l = lines[i]
        head = re.match(r"(pub(\(crate\))? )?(trait|impl|struct|enum)\b[^{]*", l)
        if head and l.rstrip().endswith("{"):
            inside = head[0].strip()
            if re.match(r"(pub(\(crate\))? )?(struct|enum)\b", l):
                block = [l]
                while not re.match(r"}", lines[i]):
                    i += 1
                    block.append(lines[i])
                inside = ""
                if l.startswith("pub "):
                    found[re.search(r"(struct|enum) \w+", l)[0]] = "\n".join(b for b in block if not b.strip().startswith("//"))
        elif re.match(r"}", l):
            inside = ""
        ghost = re.match(r"\s+ghost (\w+)( =|:) ", l)
        if ghost and inside:
            block = [l]
            while not re.search(r"};\s*$", lines[i]):
                i += 1
                block.append(lines[i])
            found[f"{inside} {{ ghost {ghost[1]} }}"] = "\n".join(block)
        fn = re.match(r"\s*(pub )?(final )?fn (\w+)", l)
        if fn and (fn[1] or inside.startswith(("trait", "pub trait"))):
            block = [l]
            while i + 1 < len(lines) and (not re.search(r"(\{|\{\}|;)\s*$", lines[i]) or re.match(r"\s*(requires|ensures)", lines[i]) and not lines[i].rstrip().endswith(";")):
                i += 1
                block.append(lines[i])
            block = [re.sub(r"\s*\{$", "", block[-1])] if len(block) == 1 else block[:-1] if block[-1].strip() in ("{", "{}") else block
            found[(inside + " " if inside else "") + "fn " + fn[3]] = "\n".join(b for b in block if not b.strip().startswith("//"))
        i += 1
    return found


def specs(text):
    found, name, kept, proof = {}, None, [], False
    for l in text.split("\n"):
        start = re.match(r"\s*(abbrev |unfoldable )?(pub )?(abbrev |unfoldable )?(pub )?(record |data )?([^\s:(){}]+)( [({][^=]*)? ?: ", l)
        if start and not re.match(r"\s*pub [\w']+ : ", l) or start and name is None or start and not kept[0].lstrip().startswith("pub record"):
            if name:
                found[name] = "\n".join(kept)
            name, kept, proof = start[6], [l], False
            definition = bool(start[1] or start[3] or start[5])
        elif name and (l.strip().startswith("--") or l.startswith(("use ", "pub use", "module ", "mod ", "  module"))):
            pass
        elif name:
            if not definition and re.match(r"\s*" + re.escape(name) + r"\b.*=", l) or l.strip() == "where":
                proof = True
            if not proof and l.strip() and not l.startswith("unfolding"):
                kept.append(l)
    if name:
        found[name] = "\n".join(kept)
    return found


def gathered(files, parse):
    together = {}
    for f in files:
        together.update(parse(files[f]))
    return together


def show(title, old, new):
    print(f"#### `{title}`\n\n```text")
    for mark, text in (("-", old), ("+", new)):
        for l in text.split("\n") if text else []:
            print(f"{mark} {l}")
    print("```\n")


for crate in CRATES:
    for part, ending, parse in (("src", ".rt", rust), ("specs", ".antt", specs)):
        folder = f"crates/{crate}/{part}"
        old, new = gathered(old_files(folder, ending), parse), gathered(new_files(folder, ending), parse)
        names = [n for n in list(old) + [n for n in new if n not in old] if tidy(old.get(n, "")) != tidy(new.get(n, ""))]
        if names:
            print(f"### {crate}, {part}/\n")
            for n in names:
                show(n, old.get(n, ""), new.get(n, ""))
