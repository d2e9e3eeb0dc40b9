#!/usr/bin/env python3
"""Respells this repository's own definitions, fields and lemmas to today's Rattle: words in snake case (`laidOver` to `laid_over`,
`some-channels` to `some_channels`). Run once, at the top, after port.py. Types, modules, functions of src/, strings and comments keep
their spelling, but for names in backquotes. What the library or the check names is left as it is.

usage: python3 tools/port/respell.py [--list]      --list: prints the names, old and new, and those that would fall together
"""
import os
import re
import sys

NAME = re.compile(r"[^\W\d_](?:[\w'≤→≡]|-(?=[\w'≤→≡]))*")
OWN = sorted(c for c in os.listdir("crates") if os.path.isdir(f"crates/{c}"))
# lemmas that port.py spelled as the definitions that they are about: the new name, and the crates where it stands
LEMMAS = {
    "after_frame": ("after_frame_lem", ("file", "play")),
    "head_bytes": ("head_bytes_lem", ("encoder",)),
    "part_length": ("part_length_lem", ("theorems",)),
}
OWN_PATH = re.compile(r"Rattle\.(?:%s)\." % "|".join(OWN))


def files(ending):
    for folder, dirs, names in os.walk("crates"):
        dirs[:] = sorted(d for d in dirs if d != "out")
        for name in sorted(names):
            if name.endswith(ending):
                yield os.path.join(folder, name)


def snake(name):
    words = re.sub(r"(?<=[a-z0-9])(?=[A-Z])", "_", name.replace("getD", "get_or"))
    return words.replace("-", "_").lower()


def defined():
    """The names that specs/ and the files of lemmas define, and those among them that are fields."""
    names, fields = set(), set()
    for path in files(".antt"):
        if path.endswith("/Proof.antt"):
            continue
        in_type = False
        for line in open(path, encoding="utf-8"):
            if line.strip() and not line.startswith((" ", "--")):
                in_type = bool(re.match(r"(?:pub )?(?:record|data) ", line))
            m = re.match(r" *(?:(?:abbrev|unfoldable|pub) )*(%s(?: %s)*) :" % (NAME.pattern, NAME.pattern), line)
            if m and (in_type or " " not in m.group(1)):
                names |= set(m.group(1).split())
                if in_type:
                    fields |= set(m.group(1).split())
    return names, fields


def turned(names, fields):
    """Old to new, for each name that changes. A lemma that would have a definition's name gets `_lem`."""
    out = {}
    for n in names:
        if n[0].islower() and (re.search(r"[a-z0-9][A-Z]", n) or "-" in n):
            out[n] = snake(n)
    plain = {new for old, new in out.items() if "-" not in old} | {n for n in names if n not in out}
    for old, new in out.items():
        if "-" in old and new in plain and old not in fields:
            out[old] = new + "_lem"
    return out


def foreign(text):
    """The names that a file takes from a library."""
    out = set()
    for m in re.finditer(r"(?m)^(?:pub |ghost )*use ([^\s{]+)\.\{([^}]*)\}", text):
        if not OWN_PATH.match(m.group(1)):
            out |= set(re.findall(NAME, m.group(2)))
    return out


def parts(text, comment):
    """Code and comments in turn: (is a comment, text). Strings count as comments without backquotes."""
    at = 0
    for m in re.finditer(r'%s[^\n]*|b?"(?:\\.|[^"\\\n])*"' % comment, text):
        yield False, text[at:m.start()]
        yield True, m.group(0)
        at = m.end()
    yield False, text[at:]


def respell(text, names, fields, comment, skip):
    def one(m):
        name = m.group(0)
        if name not in names or name in skip:
            return name
        before = m.string[: m.start()]
        if before.endswith("."):
            chain = re.search(r"[^\s(){}\[\],;]*$", before).group(0)
            head = chain.lstrip("(").split(".")[0]
            module = len(chain) > 1 and (OWN_PATH.match(chain) or (head[:1].isupper() and not chain.startswith("Rattle.")))
            if not module and name not in fields:
                return name
        return names[name]

    out = []
    for is_comment, part in parts(text, comment):
        if not is_comment:
            out.append(NAME.sub(one, part))
        elif part.startswith(comment):
            out.append(re.sub(r"`[^`]*`", lambda m: NAME.sub(one, m.group(0)), part))
        else:
            out.append(part)
    return "".join(out)


def edit_text(text, names, fields):
    """An edit: its lines old: and new:, as code."""
    out = []
    for line in text.split("\n"):
        if line.startswith(("old:", "new:")):
            line = line[:4] + respell(line[4:], names, fields, "//", set())
        out.append(line)
    return "\n".join(out)


def main(argv):
    all_names, fields = defined()
    names = turned(all_names, fields)
    fall = {}
    for old, new in [*names.items(), *((n, n) for n in all_names if n not in names)]:
        fall.setdefault(new, []).append(old)
    clash = {n: o for n, o in fall.items() if len(o) > 1}
    if "--list" in argv:
        for old in sorted(names):
            print(old, names[old])
        for new in sorted(clash):
            print("together:", new, *clash[new])
        return
    for path in [*files(".antt"), *files(".rt"), *files(".edit")]:
        text = open(path, encoding="utf-8").read()
        crate = path.split("/")[1]
        here = names | {old: new for old, (new, crates) in LEMMAS.items() if crate in crates and path.endswith(".antt")}
        if path.endswith(".edit"):
            new = edit_text(text, names, fields)
        else:
            new = respell(text, here, fields, "--" if path.endswith(".antt") else "//", foreign(text))
        if new != text:
            open(path, "w", encoding="utf-8").write(new)


if __name__ == "__main__":
    main(sys.argv[1:])
