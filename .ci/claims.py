#!/usr/bin/env python3
"""What a reader must believe: the closure of the clauses of `run` over the definitions that they cite.

claims.py prints what differs from docs/CLAIMS.md and from the headings in each specs/Lib.antt; claims.py --write writes
them. A definition is a top-level item of a file in crates/*/specs; it cites the names in its text that its file defines
or imports. Comments count with the definition that they stand above.
"""
import os
import re
import sys

ROOT = "crates/interproc_top/src/top.rt"
NAME = re.compile(r"[A-Za-z_][A-Za-z0-9_]*")
IMPORT = re.compile(r"^(?:pub )?(?:ghost )?use Rattle\.([A-Za-z0-9_.]+?)(?:\.\{([^}]*)\})?(?: as ([A-Za-z0-9_]+))?;?\s*$")
HEAD = re.compile(r"^(?:abbrev |unfoldable )*(?:pub )?(?:record |data )?(?:abbrev |unfoldable )*([A-Za-z_][A-Za-z0-9_]*)")
CLAIMS, SCAFFOLDING = "-- ---- claims: what the contract of the program says", "-- ---- scaffolding: what proofs and inner contracts say"


def crates():
    """The crates in the order of crates.txt."""
    with open("crates.txt") as listed:
        lines = (line.split("#")[0] for line in listed)
        return [line.split(":")[0].split()[0] for line in lines if line.strip()]


class File:
    """One file of definitions: its items, each a range of lines with its text and names, and what it imports."""

    def __init__(self, crate, module):
        self.crate, self.module = crate, module
        with open(f"crates/{crate}/specs/{module}.antt") as text:
            self.lines = text.read().split("\n")
        self.items, self.names, self.imports, self.modules = [], {}, {}, {}
        for line in self.lines:
            self.read_import(line)
        self.read_items()

    def read_import(self, line):
        found = IMPORT.match(line)
        if not found:
            return
        path, names, alias = found.groups()
        if names is None:
            self.modules[alias or path.split(".")[-1]] = path
            return
        for name in names.split(","):
            outer, _, inner = name.strip().partition(" as ")
            self.imports[(inner or outer).strip()] = (path, outer.strip())

    def read_items(self):
        above = None  # where the comment above the next item begins
        for number, line in enumerate(self.lines):
            if line.startswith("--"):
                above = number if above is None else above
            elif not line.strip() or IMPORT.match(line) or line.startswith("pub mod"):
                above = None
            elif not line[0].isspace():
                self.add(line, number, above)
                above = None
        for item, following in zip(self.items, self.items[1:] + [None]):
            last = (following["first"] if following else len(self.lines)) - 1
            while last > item["first"] and not self.lines[last].strip():
                last -= 1
            while last > item["own"] and self.lines[last].startswith("-- ----"):
                last -= 1
            item["last"] = last
            self.name_parts(item)

    def add(self, line, number, above):
        found = HEAD.match(line)
        name = found[1] if found else ""
        if name != "mutual" and name in self.names:
            return  # a further line of a definition by cases
        first = number if above is None or self.lines[above].startswith("-- ----") and above + 1 == number else above
        self.items.append({"name": name, "first": first, "own": number})
        self.names[name] = len(self.items) - 1

    def name_parts(self, item):
        """Constructors, fields and the members of a mutual definition stand for the item that holds them."""
        index = self.items.index(item)
        for line in self.lines[item["own"] + 1:item["last"] + 1]:
            inner = line.strip()
            found = re.match(r"(?:abbrev |unfoldable )*(?:pub )?(?:record |data )?([A-Za-z_][A-Za-z0-9_]*)\b.* : |(?:pub )?([A-Za-z_][A-Za-z0-9_]*) : ", inner)
            if found and line[0].isspace():
                self.names.setdefault(found[1] or found[2], index)

    def defined(self, item):
        """The names that an item defines: one, or those of a mutual definition."""
        if item["name"] != "mutual":
            return [item["name"]]
        inner = (re.match(r"  (?:abbrev |unfoldable )*pub (?:record |data )?([A-Za-z_][A-Za-z0-9_]*)", line) for line in self.lines[item["own"] + 1:item["last"] + 1])
        return [found[1] for found in inner if found]

    def cited(self, item):
        text = "\n".join(line.split("--")[0] for line in self.lines[item["first"]:item["last"] + 1])
        return set(NAME.findall(text))


def load():
    files = {}
    for crate in crates():
        folder = f"crates/{crate}/specs"
        for name in sorted(os.listdir(folder)) if os.path.isdir(folder) else []:
            if name.endswith(".antt") and name != "Lib.antt":
                files[crate, name[:-5]] = File(crate, name[:-5])
    return files


def target(path, name, files):
    """The item that an import names, or the type of the code."""
    parts = path.split(".")
    if len(parts) < 3 or parts[1] != "specs":
        return None
    if parts[2] in ("declared", "contracts"):
        return ("type", parts[0], ".".join(parts[3:5]))
    file = files.get((parts[0], parts[2]))
    if file and name in file.names:
        return ("item", parts[0], parts[2], file.names[name])
    # a name that a crate hands on from one below
    for other in files.values():
        if file is None and other.module == parts[2] and name in other.names:
            return ("item", other.crate, other.module, other.names[name])
    return None


def roots(files):
    """What the clauses of `run` cite."""
    with open(ROOT) as text:
        lines = text.read().split("\n")
    imports = {}
    for line in lines:
        found = IMPORT.match(line)
        if found and found[2]:
            for name in found[2].split(","):
                imports[name.strip()] = found[1]
    begin = next(number for number, line in enumerate(lines) if line.startswith("pub fn run"))
    end = next(number for number in range(begin, len(lines)) if lines[number] == "{")
    used = set(NAME.findall("\n".join(line.split("//")[0] for line in lines[begin:end])))
    return [target(path, name, files) for name, path in imports.items() if name in used]


def closure(files):
    seen, waiting = set(), [root for root in roots(files) if root]
    while waiting:
        here = waiting.pop()
        if here in seen:
            continue
        seen.add(here)
        if here[0] != "item":
            continue
        file = files[here[1], here[2]]
        for name in file.cited(file.items[here[3]]):
            if name in file.names:
                waiting.append(("item", here[1], here[2], file.names[name]))
            elif name in file.imports:
                waiting.append(target(*file.imports[name], files))
            elif name in file.modules:
                waiting.append(target(file.modules[name], name, files))
        waiting = [one for one in waiting if one]
    return seen


def page(files, seen):
    """docs/CLAIMS.md: the files in reading order with the definitions that count."""
    counts, rows = 0, []
    for (crate, module), file in files.items():
        mine = sorted({one[3] for one in seen if one[0] == "item" and one[1:3] == (crate, module)})
        if not mine:
            continue
        lines = sum(file.items[k]["last"] - file.items[k]["first"] + 1 for k in mine)
        counts += lines
        names = ", ".join(f"`{name}`" for k in mine for name in file.defined(file.items[k]))
        rows.append((crate, module, lines, len(file.lines) - 1, names))
    types = sorted((one[1], one[2]) for one in seen if one[0] == "type")
    order = crates()
    rows.sort(key=lambda row: order.index(row[0]))
    text = ["# What must be believed", "",
            "The contract of `run` (`crates/interproc_top/src/top.rt`) is proved; that it says what its readers think it says is what they must",
            "believe. These are the definitions that its clauses cite, and those that these cite, to the last: "
            f"{counts} lines in {len({row[0] for row in rows})} crates,", "in the order in which the crates stand on each other. All other files in `crates/*/specs` are scaffolding of proofs. `.ci/claims.py`",
            "makes this page from the sources, and the repository's own checks compare it.", ""]
    crate = None
    for row in rows:
        if row[0] != crate:
            crate = row[0]
            text += ["", f"## {crate}", "", "| File | Lines that count | of | Definitions |", "|---|---|---|---|"]
        text.append(f"| `specs/{row[1]}.antt` | {row[2]} | {row[3]} | {row[4]} |")
    text += ["", "## Types of the code", "", "Claims speak of these types of the code as their `Model` in the source says:", ""]
    for name in sorted({crate for crate, _ in types}, key=order.index):
        text.append(f"- `{name}`: " + ", ".join(f"`{one.split('.')[-1]}`" for owner, one in types if owner == name))
    return "\n".join(text) + "\n"


def library(crate, claimed):
    """specs/Lib.antt of a crate, with its files under the two headings."""
    with open(f"crates/{crate}/specs/Lib.antt") as text:
        lines = [line for line in text.read().split("\n") if line.strip() and line not in (CLAIMS, SCAFFOLDING)]
    named = {line: line.split()[-1] for line in lines if line.startswith("pub mod ")}
    first = [line for line in lines if line in named and named[line] in claimed]
    second = [line for line in lines if line in named and named[line] not in claimed]
    rest = [line for line in lines if line not in named]
    parts = rest
    if first:
        parts = parts + [CLAIMS] + first
    if second:
        parts = parts + [SCAFFOLDING] + second
    return "\n".join(parts) + "\n"


def main():
    files = load()
    seen = closure(files)
    wanted = {"docs/CLAIMS.md": page(files, seen)}
    for crate in sorted({crate for crate, _ in files}):
        wanted[f"crates/{crate}/specs/Lib.antt"] = library(crate, {one[2] for one in seen if one[0] == "item" and one[1] == crate})
    for path, text in wanted.items():
        if "--write" in sys.argv[1:]:
            with open(path, "w") as out:
                out.write(text)
        elif not os.path.exists(path) or open(path).read() != text:
            print(f"{path} is not what .ci/claims.py makes of the sources: run python3 .ci/claims.py --write")


if __name__ == "__main__":
    os.chdir(os.path.join(os.path.dirname(os.path.abspath(__file__)), ".."))
    main()
