#!/usr/bin/env python3
"""How many lines of definitions have to be believed: those that the contract of the program's call rests on.

    python3 tools/believed.py           totals by crate, and the total
    python3 tools/believed.py files     totals by file as well
    python3 tools/believed.py names     each definition that is reached, with its file and its lines
    python3 tools/believed.py check     fails where README.md has another total; `write` writes the total there

Run from the top of the repository. It begins with the contract of `hbnf` in crates/hb_top/src/top.rt and follows each name that stands in a
clause or in a definition that is reached to that name's own definition, through the `use` lines of the file that it stands in: definitions of
specs/, and structs, enums and traits of src/, with the contracts of a trait's calls. What the kit defines is not followed, and not counted. A
definition's lines are those that are neither blank nor a comment; `use` lines are not counted. A bound variable that has the name of a
definition counts that one too, so the count is rather too high than too low. It uses the standard library alone."""

import collections
import itertools
import pathlib
import re
import sys

CRATES = pathlib.Path("crates")
README = pathlib.Path("README.md")
CALL = (CRATES / "hb_top/src/top.rt", "hbnf")
KEYWORDS = ("abbrev", "pub", "unfoldable", "opaque", "data", "record", "mutual")
NAME = r"[^\s(){}\[\],;.:\"]+"
Definition = collections.namedtuple("Definition", "file name lines")


def bare(line):
    """The line without the texts of strings and without its comment."""
    line = re.sub(r'"(?:[^"\\]|\\.)*"', '""', line)
    return re.split(r"(?:^|\s)--(?:\s|$)", line)[0].rstrip()


def words(line):
    """The names of a line: of `a.b` both, since `a` may be a module."""
    for word in re.findall(r"[^\s(){}\[\],;:\"]+", bare(line)):
        head, _, rest = word.partition(".")
        yield head, rest.partition(".")[0]


class File:
    """A file of definitions: which names stand for what in it, and which lines define what."""

    def __init__(self, path):
        self.path, self.crate = path, path.parts[1]
        self.imports, self.modules, self.own = {}, {}, {}
        self.read(path.read_text(encoding="utf-8").split("\n"))

    def bring(self, path, names, renamed=None):
        """What one `use` line brings in: names of a module, or a module under a name."""
        if names is None:
            self.modules[renamed or path.rpartition(".")[2]] = path
            return
        for it in names.split(","):
            name, _, other = it.strip().partition(" as ")
            self.imports.setdefault((other or name).strip(), []).append((path, name.strip()))

    def used(self, line):
        found = re.match(r"\s*(?:pub |ghost )*use ([^\s{;]+?)(?:\.?\{([^}]*)\})?(?: as (\S+?))?;?$", line)
        if found:
            self.bring(found[1].rstrip("."), found[2], found[3])
        return found

    def define(self, names, lines):
        made = Definition(self.path, names[0], tuple(lines))
        for name in names:
            self.own.setdefault(name, made)


class Specs(File):
    """A file of specs/."""

    def read(self, lines):
        names, body = [], []

        def end():
            if names:
                self.define(names, body)

        # (the last line ends the last definition, and is no definition itself)
        for line in [*lines, "abbrev end_of_file : Type 0"]:
            line = line.rstrip()
            if not bare(line) or line.startswith("--"):
                continue
            if not line[0].isspace():
                if self.used(line) or line.startswith(("pub mod ", "mod ", "infix")):
                    continue
                front = line.split()
                kinds = list(itertools.takewhile(lambda it: it in KEYWORDS, front))
                if kinds or re.match(r"\S+ : ", line):
                    end()
                    names, body = ([] if "mutual" in kinds else [front[len(kinds)].rstrip(":")]), []
            inner = re.match(r"\s+(?:(?:abbrev|pub|unfoldable|opaque|data|record)\s+)*(%s)\s*(?:[({][^=]*)?:\s" % NAME, line)
            if inner and line[0].isspace() and inner[1] not in names:
                names = [*names, inner[1]]
            body = [*body, line]


class Source(File):
    """A file of src/: its structs, enums and traits, the models of structs, and its contracts."""

    def read(self, lines):
        self.contracts = {}
        for line in lines:
            if line.startswith(("ghost use ", "use ")):
                if not self.used(line.replace("::", ".")):
                    continue
        at = 0
        while at < len(lines):
            item = re.match(r"(?:pub(?:\([^)]*\))? )?(struct|enum|trait) (\w+)", lines[at])
            model = re.match(r"impl(?:<.*>)? Model for (\w+)", lines[at])
            call = re.match(r"(?:pub(?:\([^)]*\))? )?fn (\w+)", lines[at])
            if item or model:
                last = at
                if not lines[at].rstrip().endswith(";"):
                    while lines[last].rstrip() not in ("}", "};") and "{}" not in lines[last]:
                        last += 1
                self.define([(item[2] if item else model[1] + " (its model)")], self.counted(lines[at : last + 1]))
                at = last
            elif call:
                last = at
                while lines[last] != "{" and not lines[last].endswith(" {"):
                    last += 1
                self.contracts[call[1]] = self.counted(lines[at:last])
                at = last
            at += 1

    @staticmethod
    def counted(lines):
        return [it.rstrip() for it in lines if it.strip() and not it.strip().startswith(("//", "#["))]


FILES = {}


def file_of(path):
    if path not in FILES:
        FILES[path] = (Source if path.suffix == ".rt" else Specs)(path) if path.is_file() else None
    return FILES[path]


def module(file, path):
    """The files that a module's path may stand for."""
    parts = path.split(".")
    if parts[0] in ("crate", "super"):
        parts = ["Rattle", file.crate, *parts[1:]]
    elif parts[0] != "Rattle":
        parts = ["Rattle", *parts]
    crate = CRATES / parts[1] if len(parts) > 1 else CRATES / "none"
    if not crate.is_dir():
        return []
    if parts[2:3] == ["specs"] and parts[3:4] != ["declared"]:
        return [it for it in [file_of(crate / "specs" / ("/".join(parts[3:]) + ".antt"))] if it]
    return [file_of(it) for it in sorted((crate / "src").rglob("*.rt")) if it.name != "tests.rt"]


def found(file, path, name):
    """The definitions of a name of a module: for what Rust declares, the item that the path names."""
    declared = re.search(r"\.declared\.(.*)", path)
    if declared:
        parts = [it for it in declared[1].split(".") if it != "TheVariants"]
        name = parts[-1]
    return [it.own[key] for it in module(file, path) for key in (name, name + " (its model)") if key in it.own]


def reached(file, lines):
    """The definitions that the lines name."""
    for line in lines:
        for head, second in words(line):
            for name in (head, "◌%s◌" % head):
                if name in file.own:
                    yield file.own[name]
                else:
                    for path, its_name in file.imports.get(name, ()):
                        yield from found(file, path, its_name)
            if head in file.modules and second:
                yield from found(file, file.modules[head], second)


def believed():
    """Every definition that is reached from the contract, the contract first."""
    top = file_of(CALL[0])
    first = Definition(CALL[0], CALL[1], tuple(top.contracts[CALL[1]]))
    seen, left = {first: None}, [first]
    while left:
        it = left.pop()
        for other in reached(file_of(it.file), it.lines):
            if other not in seen:
                seen[other] = None
                left.append(other)
    return list(seen)


def compare(word, total):
    """Compares the README's total with this one, or writes it."""
    text = README.read_text(encoding="utf-8")
    changed, found = re.subn(r"[\d,]+ lines of [\d,]+\s+definitions", total, text)
    if not found:
        raise SystemExit("%s has no total `%s`" % (README, total))
    if word == "write":
        README.write_text(changed, encoding="utf-8")
    elif text != changed:
        raise SystemExit("%s has another total than `%s`: `python3 tools/believed.py write` writes it" % (README, total))


def main(word):
    by_crate, by_file = collections.Counter(), collections.Counter()
    all_of = believed()
    for it in all_of:
        by_crate[it.file.parts[1]] += len(it.lines)
        by_file[it.file] += len(it.lines)
    total = "{:,} lines of {:,} definitions".format(sum(by_crate.values()), len(all_of))
    if word in ("check", "write"):
        return compare(word, total)
    if word == "names":
        for it in sorted(all_of, key=lambda it: (it.file, it.name)):
            print("%5d  %s  %s" % (len(it.lines), it.file, it.name))
    for crate, count in sorted(by_crate.items(), key=lambda it: (-it[1], it[0])):
        print("%5d  %s" % (count, crate))
        if word == "files":
            for path, lines in sorted(by_file.items(), key=lambda it: (-it[1], it[0])):
                if path.parts[1] == crate:
                    print("         %5d  %s" % (lines, "/".join(path.parts[2:])))
    print(total)


if len(sys.argv) > 2 or sys.argv[1:] not in ([], ["files"], ["names"], ["check"], ["write"]):
    raise SystemExit(__doc__)
main(sys.argv[1] if len(sys.argv) > 1 else "")
