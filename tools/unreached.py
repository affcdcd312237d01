#!/usr/bin/env python3
"""Finds definitions and lemmas that nothing reaches: of a crate's specs/ and proofs/, those that no contract, no answer and no other crate names, directly
or through others that one of these names.

python3 tools/unreached.py [NAME..], from anywhere, for all crates where none is named. It goes by names as they are written and imported, so it may
keep one that is only spelled like another. Ends with status 1 where there are any.
"""
import collections
import pathlib
import re
import sys

CRATES = pathlib.Path(__file__).resolve().parent.parent / "crates"
WORD = re.compile(r"[^\s(){}\[\];,λ.]+")
USE = re.compile(r"^(?:ghost )?use Rattle\.(\w+)\.([\w.]+?)(?:\.\{([^}]*)\}| as (\w+))?;?$")
NO_NAME = ("use ", "mod ", "pub mod ", "module ", "unfolding", "--")


def names_in(line):
    """The names that a line declares, if it begins a signature or a record."""
    if not line or line[0] in " |→λ(" or line.startswith(NO_NAME):
        return None
    rest = re.sub(r"^(?:abbrev |pub |unfoldable )*", "", line)
    kind = re.match(r"(?:record|data) ([^\s(){}:]+)", rest)
    if kind:
        return [kind.group(1)]
    several = re.match(r"((?:[^\s(){}:=;,|]+ )+): ", rest + " ")
    return several.group(1).split() if several else None


class Module:
    """A file of definitions or lemmas: what it declares, with the lines of each, and what it imports."""

    def __init__(self, path):
        self.lines = path.read_text().split("\n")
        self.blocks, self.heads = {}, []
        starts, levels, waits = [], [0], None
        for number, line in enumerate(self.lines):
            text = line.strip()
            if not text or text.startswith("--"):
                continue
            indent = len(line) - len(line.lstrip())
            if waits is not None:
                levels, waits = [it for it in levels if it <= waits] + [indent], None
            while len(levels) > 1 and indent < levels[-1]:
                levels.pop()
            if indent in levels:
                if text.startswith("module "):
                    self.heads.append(number)
                    starts.append((number, None, indent))
                elif text.startswith(("use ", "mod ", "pub mod ")):
                    starts.append((number, None, indent))
                elif names_in(text) is not None:
                    starts.append((number, names_in(text), indent))
            if text.endswith(" where") and starts and self.lines[starts[-1][0]].strip().startswith("module "):
                waits = starts[-1][2]
        for at, (number, names, _) in enumerate(starts):
            end = starts[at + 1][0] if at + 1 < len(starts) else len(self.lines)
            for name in names or ():
                self.blocks[name] = (number, end)
        self.imported, self.whole = imports_of(self.lines)

    def words(self, start, end):
        return WORD.findall("\n".join(line for line in self.lines[start:end] if not line.strip().startswith("--")))

    def head_words(self):
        for number in self.heads:
            end = number
            while not self.lines[end].rstrip().endswith("where"):
                end += 1
            yield from self.words(number, end + 1)


def imports_of(lines):
    """The names that are imported, each with its module and its name there, and the modules that are imported whole."""
    names, whole = {}, []
    for line in lines:
        found = USE.match(line.strip())
        if not found:
            continue
        module = f"{found.group(1)}.{found.group(2)}"
        if found.group(3) is None:
            whole.append(module)
        for item in (found.group(3) or "").split(","):
            name, _, own = item.strip().partition(" as ")
            if name:
                names[own.strip() or name.strip()] = (module, name.strip())
    return names, whole


def main():
    wanted = sys.argv[1:] or sorted(it.parent.name for it in CRATES.glob("*/src"))
    modules, roots = {}, []
    for crate in sorted(it for it in CRATES.iterdir() if it.is_dir()):
        for kind in ("specs", "proofs"):
            for path in sorted((crate / kind).glob("*.antt")):
                if path.name != "Lib.antt":
                    modules[f"{crate.name}.{kind}.{path.stem}"] = Module(path)
            roots += [it for it in (crate / kind).glob("*/**/*.antt")]
        roots += [*(crate / "src").rglob("*.rt")]

    def meant(word, own, names, whole):
        if own and word in modules[own].blocks:
            yield own, word
        elif word in names and names[word][0] in modules:
            yield names[word]
        for module in whole:
            if module in modules and word in modules[module].blocks:
                yield module, word

    todo, reached = [], set()
    for path in roots:
        text = path.read_text()
        names, whole = imports_of(text.split("\n"))
        todo += [it for word in set(WORD.findall(text)) | set(names) for it in meant(word, None, names, whole)]
        # an attribute of code names lemmas by their paths
        todo += [(f"{path.relative_to(CRATES).parts[0]}.{kind}.{module}", name) for kind, module, name in re.findall(r"crate::(specs|proofs)::(\w+)::(\w+)", text)]
    while todo:
        it = todo.pop()
        if it in reached or it[0] not in modules or it[1] not in modules[it[0]].blocks:
            continue
        reached.add(it)
        module = modules[it[0]]
        for word in (*module.words(*module.blocks[it[1]]), *module.head_words()):
            todo += meant(word, it[0], module.imported, module.whole)
    left = collections.defaultdict(list)
    for name, module in modules.items():
        if name.split(".")[0] in wanted:
            left[name] = [it for it in module.blocks if (name, it) not in reached]
    for name, items in left.items():
        if items:
            print(f"{name}: {' '.join(items)}")
    count = sum(map(len, left.values()))
    print(f"{count} that nothing reaches, of {sum(len(module.blocks) for module in modules.values())}")
    return 1 if count else 0


sys.exit(main())
