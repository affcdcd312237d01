#!/usr/bin/env python3
"""Makes pages of the interface: for each crate one HTML page with its `//!`, its public items with their comments, signatures and contracts, and the
definitions that contracts cite. Each word of a contract that the repository defines is a link to its definition, and each `[name]` of a comment one to
what it names.

python3 tools/pages.py [FOLDER] writes FOLDER/NAME.html and FOLDER/index.html (out/pages without FOLDER), and prints how many words are links. It ends
with status 1 where a word that a file brings in has no definition.
"""
import html
import pathlib
import re
import sys
from dataclasses import dataclass

ROOT = pathlib.Path(__file__).resolve().parent.parent
USE = re.compile(r"(?:ghost )?use Rattle\.(\w+)\.specs\.([\w.]+)\.\{([^}]*)\}", re.S)
ITEM = re.compile(r"^( *)pub (?:const )?(fn|struct|enum|trait|const|type)\b")
MEMBER = re.compile(r"^( +)fn (\w+)")
NAME = re.compile(r"\b(fn|struct|enum|trait|const|type)\s+(\w+)")
DEFINITION = re.compile(r"^(?: *(?:abbrev |unfoldable )pub |pub | +pub (?=record |data ))(?:record |data )?([A-Za-z_]\w*)\b")
CONSTRUCTOR = re.compile(r"^ +(?:pub )?([A-Z]\w*) :")
PUBLIC_USE = re.compile(r"^pub use ([\w:]+?)::(?:\{([^}]*)\}|(\w+));", re.M | re.S)
PUBLIC_MOD = re.compile(r"^pub mod (\w+);", re.M)
WORD = re.compile(r"[A-Za-z_][A-Za-z_0-9]*")
KEYWORD = re.compile(
    r"(?<![\w.])(pub|fn|struct|enum|trait|impl|const|type|let|mut|match|if|else|for|in|while|return|use|ghost|requires|ensures|record|data|abbrev|unfoldable"
    r"|where|module|absurd|elim|as|mod)(?![\w.])"
)
STRING = re.compile(r'("(?:[^"\\]|\\.)*")')
REFERENCE = re.compile(r"\[`([^`]*)`\](?:\(([^)]*)\))?")
COMMENT = re.compile(r"(?<!:)//.*|(?:^|(?<=\s))-- .*")

# What kind of crate a name's beginning tells, in the order of the index.
KINDS = [
    ("The gateway", "The product, from what a host calls down to what all others use.", ""),
    ("Providers of cryptography", "Types that meet the traits of the crate suite, and what they are made of.", "caller_ aes modp"),
    ("The C library and the program", "", "sukperin gw"),
    ("Laws alone", "Crates without code that runs.", "laws_ lockstep deliveries"),
    ("Tests, examples and measures", "", "test_ tool_ vectors"),
]

STYLE = """
:root { --ground: #fff; --text: #1f2328; --faint: #656d76; --panel: #f6f8f9; --line: #d8dee4; --link: #0a58a5; --word: #8a3ba5; --remark: #5f6b76; --mark: #fff6d6; }
@media (prefers-color-scheme: dark) { :root { color-scheme: dark; --ground: #16191d; --text: #d9dee3; --faint: #929ba5; --panel: #1f242a; --line: #363d45;
  --link: #7cb7f5; --word: #d3a0e8; --remark: #94a1ad; --mark: #3b3a22; } }
* { box-sizing: border-box; }
html { scroll-padding-top: 1rem; }
body { font: 16px/1.55 system-ui, -apple-system, "Segoe UI", sans-serif; margin: 0; color: var(--text); background: var(--ground); display: flex; }
a { color: var(--link); text-decoration: none; } a:hover { text-decoration: underline; }
nav { flex: 0 0 17rem; height: 100vh; position: sticky; top: 0; overflow: auto; padding: 1rem; background: var(--panel); border-right: 1px solid var(--line); font-size: 14px; }
nav b { display: block; margin: 1rem 0 .2rem; } nav ul { list-style: none; margin: 0; padding: 0; } nav li { padding: .1rem 0; overflow-wrap: anywhere; }
nav .in { padding-left: .9rem; } nav input { width: 100%; padding: .3rem .5rem; color: inherit; background: var(--ground); border: 1px solid var(--line); border-radius: 4px; font: inherit; }
main { flex: 1; min-width: 0; max-width: 66rem; padding: 1.2rem 2.2rem 6rem; }
h1 { font-size: 1.7rem; margin: .2rem 0 1rem; } h2 { margin: 2.8rem 0 .6rem; padding-bottom: .25rem; border-bottom: 1px solid var(--line); font-size: 1.35rem; }
h3 { margin: 2rem 0 .3rem; font-size: 1.05rem; } h3:target, h4:target { background: var(--mark); } h4 { margin: 1.5rem 0 .3rem 1.2rem; font-size: 1rem; }
h5 { margin: 1.4rem 0 .3rem; font-size: 1.1rem; } h3 a, h4 a { color: inherit; } section.of { margin-left: 1.2rem; }
p, ul { margin: .5rem 0; } li { margin: .25rem 0; } .faint { color: var(--faint); font-weight: normal; font-size: 13px; }
code, pre { font-family: ui-monospace, "SF Mono", "DejaVu Sans Mono", Menlo, Consolas, monospace; } code { font-size: .89em; background: var(--panel); border-radius: 3px; padding: .05em .25em; }
h1 code, h3 code, h4 code { background: none; padding: 0; } pre { font-size: 13.5px; line-height: 1.5; background: var(--panel); border-radius: 6px; padding: .7rem .9rem; margin: .5rem 0; overflow-x: auto; }
pre .l { display: block; white-space: pre-wrap; overflow-wrap: anywhere; padding-left: calc((var(--i) + 4) * 1ch); text-indent: calc((var(--i) + 4) * -1ch); }
pre .k { color: var(--word); } pre .c { color: var(--remark); font-style: italic; } details > summary { cursor: pointer; margin: 2.5rem 0 .5rem; font-weight: 600; }
dl { display: grid; grid-template-columns: max-content 1fr; gap: .3rem 1.2rem; } dd { margin: 0; } nav details summary { display: none; }
@media (max-width: 56rem) { body { display: block; } nav { position: static; height: auto; border-right: 0; border-bottom: 1px solid var(--line); padding: .6rem 1rem; }
  nav details summary { display: block; margin: 0; } main { padding: 1rem 1rem 4rem; } h4, section.of { margin-left: .3rem; } dl { display: block; } dd { margin: 0 0 .7rem; } }
"""

# On a narrow screen the list is folded; what is typed leaves the entries that have it.
SCRIPT = """<script>
const list = document.querySelector("nav details"); const wide = matchMedia("(min-width: 56.01rem)"); const fold = () => list.open = wide.matches; wide.onchange = fold; fold();
document.querySelector("nav input").oninput = it => { const word = it.target.value.toLowerCase();
  document.querySelectorAll("nav li").forEach(li => li.hidden = !li.textContent.toLowerCase().includes(word)); };
</script>"""


@dataclass
class Item:
    file: pathlib.Path
    line: int
    owner: str  # the head of the `impl` or `trait` in which it stands, or nothing
    kind: str
    name: str
    comment: list
    head: str

    @property
    def type(self):
        """The type that a method is of: the last word of its `impl`, without parameters."""
        head = re.sub(r"<[^<>]*>", "", re.sub(r"<[^<>]*>", "", self.owner))
        return WORD.findall(head.split(" where ")[0])[-1] if self.owner else ""

    @property
    def anchor(self):
        return f"{self.type}.{self.name}" if self.owner else self.name


def escaped(text):
    return html.escape(text, quote=False)


def brought(text):
    """The words that a file brings in from definitions, each with its crate and its file."""
    words = {}
    for crate, file, names in USE.findall(text):
        if (ROOT / "crates" / crate).is_dir() and not file.startswith(("declared", "contracts")):
            for name in filter(None, (it.strip() for it in names.split(","))):
                old, _, new = name.partition(" as ")
                words[(new or old).strip()] = (crate, file, old.strip())
    return words


def sources(crate):
    """The files of a crate's code, lib first, without those of its tests."""
    files = sorted((ROOT / "crates" / crate / "src").rglob("*.rt"), key=lambda it: (it.name != "lib.rt", str(it)))
    return [it for it in files if "tests" not in it.parts and it.stem != "tests"]


def lib(crate):
    return (ROOT / "crates" / crate / "src" / "lib.rt").read_text()


def page_comment(crate):
    return [it[3:].removeprefix(" ") for it in lib(crate).split("\n") if it.startswith("//!")]


def is_whole_head(lines):
    """Whether lines are an item's head with its contract: behind them a body begins, or there is none."""
    text, last = "\n".join(lines), lines[-1].strip()
    depth = text.count("{") - text.count("}")
    if last in ("{", "{}"):
        return depth == (last == "{")
    has_clauses = re.search(r"^ *(?:requires|ensures)\b", text, re.M)
    return depth == 0 and last.endswith(";") or not has_clauses and (last.endswith("{}") or depth == 1 and last.endswith("{"))


def items(file):
    """The public items of a file."""
    lines, comment, owner, in_trait = file.read_text().split("\n"), [], "", False
    at = 0
    while at < len(lines):
        line = lines[at]
        if line.startswith(("#[cfg(test)]", "mod tests")):
            return
        if re.match(r"^(?:pub )?(?:impl|trait)\b", line):
            in_trait = "trait " in line.split("for")[0] and not line.startswith("impl")
            owner = line.replace("pub ", "").rstrip("{ ").strip()
        if line.startswith("}"):
            owner, in_trait = "", False
        if line.strip().startswith("///"):
            comment.append(line.strip()[3:].removeprefix(" "))
        elif (found := ITEM.match(line) or (in_trait and comment and MEMBER.match(line))):
            indent, head, first = found[1], [line], at + 1
            whole = re.match(r"^ *pub (?:struct|enum)\b", line) and line.endswith("{")
            while not (lines[at] == indent + "}" if whole else is_whole_head(head)) and at + 1 < len(lines):
                at += 1
                head.append(lines[at])
            text = "\n".join(it.removeprefix(indent) for it in head)
            text = text if whole else re.sub(r"\s*\{\}?$", "", text)
            kind, name = NAME.search(text).groups()
            yield Item(file, first, owner if indent else "", kind, name, comment, text)
            comment = []
        elif not line.strip().startswith(("#[", "//")):
            comment = []
        at += 1


def definitions(crate):
    """The definitions of a crate: file, name, and text with the comment above it."""
    for file in sorted((ROOT / "crates" / crate / "specs").glob("*.antt")):
        for block in re.split(r"\n\s*\n", file.read_text()):
            for line in block.split("\n"):
                if (found := DEFINITION.match(line)) and found[1] != "mod":
                    yield file.stem, found[1], block.strip("\n")
                    yield from ((file.stem, it[1], "") for it in map(CONSTRUCTOR.match, block.split("\n")) if it)
                    break


def marked(text, linked):
    """A piece of code without strings and comments, its keywords marked."""
    return "".join(f'<span class="k">{it}</span>' if at % 2 else linked(it) for at, it in enumerate(KEYWORD.split(text)))


def code(text, linked=escaped):
    """Lines of code, each a block that wraps under its own indentation; comments and keywords are marked."""
    out = []
    for line in text.split("\n"):
        remark = COMMENT.search(line)
        told = line[:remark.start()] if remark else line
        parts = "".join(escaped(it) if at % 2 else marked(it, linked) for at, it in enumerate(STRING.split(told)))
        if remark:
            said = REFERENCE.sub(r"`\1`", remark[0])
            parts += f'<span class="c">{escaped(said)}</span>'
        indent = len(line) - len(line.lstrip())
        out.append(f'<span class="l" style="--i:{indent}">{parts}\n</span>')
    return f'<pre>{"".join(out)}</pre>'


class Pages:
    def __init__(self):
        self.crates = sorted(it.name for it in (ROOT / "crates").iterdir() if (it / "src" / "lib.rt").is_file())
        self.known = {crate: list(definitions(crate)) for crate in self.crates}
        self.names = {(crate, file, name) for crate, found in self.known.items() for file, name, _ in found}
        self.items = {crate: [it for file in sources(crate) for it in items(file)] for crate in self.crates}
        self.anchors = {crate: {it.anchor for it in found} for crate, found in self.items.items()}
        self.outside = {crate: dict(self.reexports(crate)) for crate in self.crates}
        self.places = {crate: {} for crate in self.crates}  # where a definition, or a file of them, stands on its crate's page
        for crate, found in self.known.items():
            for file, name, text in found:
                if text:
                    self.places[crate].setdefault(name, []).append(f"{file}.{name}")
                self.places[crate][file] = [f"specs.{file}"]
        self.linked, self.lost = 0, set()

    def reexports(self, crate):
        """What a crate's lib gives on of other crates: name and crate."""
        for path, names, one in PUBLIC_USE.findall(lib(crate)):
            if self.is_other(source := path.split("::")[0], crate):
                yield from ((it.strip(), source) for it in (names or one).split(",") if it.strip())

    def is_other(self, name, crate):
        """Whether a name means another crate, and no module of this one."""
        source = ROOT / "crates" / crate / "src"
        return name in self.crates and name != crate and not (source / f"{name}.rt").is_file() and not (source / name).is_dir()

    def is_public(self, crate, item):
        """Whether a crate's users can name the item: lib brings it out, or it stands in a public module."""
        text, parts = lib(crate), item.file.relative_to(ROOT / "crates" / crate / "src").with_suffix("").parts
        out = {it.strip() for path, names, one in PUBLIC_USE.findall(text) for it in (names or one).split(",")}
        return parts == ("lib",) or parts[0] in PUBLIC_MOD.findall(text) or (item.type or item.name) in out

    def target(self, path, crate, of=""):
        """The page and the place that a path of a comment names, seen from a crate, and there from a type."""
        path = re.sub(r"\(.*", "", path)
        words = [it for it in path.split("::") if it not in ("crate", "super", "self", "laws")]
        if path in ("laws", "crate::laws") and any(it.file.parts[-1] == "laws.rt" or "laws" in it.file.parts for it in self.items[crate]):
            return "#laws"
        if len(words) == 1 and self.is_other(words[0], crate):
            return f"{words[0]}.html"
        if words and self.is_other(words[0], crate):
            crate, words, page = words[0], words[1:], f"{words[0]}.html"
        else:
            page = ""
        for names in (words[-2:], words[-1:], [of, *words[-1:]], words[-2:-1]):
            if ".".join(names) in self.anchors[crate]:
                return f'{page}#{".".join(names)}'
            if names and names[0] in self.outside[crate]:
                other = self.outside[crate][names[0]]
                return f'{other}.html#{".".join(names) if ".".join(names) in self.anchors[other] else names[0]}'
        return ""

    def inline(self, text, crate, of):
        """A paragraph with its marks: code, links, stress."""
        kept = []

        def keep(piece):
            kept.append(piece)
            return f"\0{len(kept) - 1}\0"

        def reference(found):
            name, path = found[1], found[2] or found[1]
            shown = f"<code>{escaped(name)}</code>"
            target = self.target(path.strip("`"), crate, of)
            return keep(f'<a href="{target}">{shown}</a>' if target else shown)

        def named(found):
            shown, places = f"<code>{escaped(found[1])}</code>", self.places[crate].get(found[1].removeprefix("specs/"), [])
            target = f"#{found[1]}" if found[1] in self.anchors[crate] else f"#{places[0]}" if len(places) == 1 else ""
            return keep(f'<a href="{target}">{shown}</a>' if target else shown)

        text = REFERENCE.sub(reference, text)
        text = re.sub(r"`([^`]*)`", named, text)
        text = re.sub(r"\[([^\]]*)\]\((https?:[^)]*)\)", lambda it: keep(f'<a href="{html.escape(it[2])}">{escaped(it[1])}</a>'), text)
        text = re.sub(r"(?<!\w)\*([^*\s][^*]*)\*(?!\w)", r"<em>\1</em>", re.sub(r"\*\*([^*]+)\*\*", r"<b>\1</b>", escaped(text)))
        return re.sub("\0(\\d+)\0", lambda it: kept[int(it[1])], text)

    def prose(self, lines, crate, of=""):
        """Comment lines as headings, paragraphs, lists and blocks of code."""
        out, block, paragraph, in_list = [], None, [], False

        def close():
            nonlocal paragraph
            if paragraph:
                tag = "li" if in_list else "p"
                out.append(f"<{tag}>{self.inline(' '.join(paragraph), crate, of)}</{tag}>")
            paragraph = []

        def end_list():
            nonlocal in_list
            close()
            if in_list:
                out.append("</ul>")
            in_list = False

        for line in lines:
            if line.startswith("```"):
                end_list()
                if block is not None:
                    out.append(code("\n".join(block)))
                block = [] if block is None else None
            elif block is not None:
                block.append(line)
            elif line.startswith("# "):
                end_list()
                out.append(f"<h5>{escaped(line[2:])}</h5>")
            elif line.startswith("- "):
                close()
                if not in_list:
                    out.append("<ul>")
                in_list, paragraph = True, [line[2:].strip()]
            elif not line.strip() or (in_list and not line.startswith("  ")):
                end_list()
                paragraph = [line.strip()] if line.strip() else []
            else:
                paragraph.append(line.strip())
        end_list()
        return "\n".join(out)

    def link(self, text, words, own=None):
        """A text with each word that is brought in, or defined in the file itself, as a link."""
        def one(found):
            target = words.get(found[0]) or (own and (*own, found[0]))
            if target not in self.names:
                return found[0]
            self.linked += 1
            crate, file, name = target
            return f'<a href="{crate}.html#{file}.{name}">{found[0]}</a>'

        return WORD.sub(one, escaped(text))

    def shown(self, crate, item):
        """One item: its name, its comment, and its head with its contract."""
        words = brought(item.file.read_text())
        self.lost |= {f"{item.file.relative_to(ROOT)}: {'.'.join(it)}" for it in words.values() if it not in self.names and it[2][0].isupper()}
        place = f"{item.file.relative_to(ROOT / 'crates' / crate)}:{item.line}"
        head = f'{item.type + "::" if item.type else ""}{item.name}'
        tag, whose = ("h4", f" {escaped(item.owner)}" if " for " in item.owner else "") if item.owner else ("h3", "")
        body = self.prose(item.comment, crate, item.type) + code(item.head, lambda it: self.link(it, words))
        place_of = "" if item.anchor in self.given else f' id="{item.anchor}"'
        self.given.add(item.anchor)
        heading = f'<{tag}{place_of}><a href="#{item.anchor}"><code>{head}</code></a> <span class="faint">{place}{whose}</span></{tag}>'
        return heading + (f'<section class="of">{body}</section>' if item.owner else body)

    def groups(self, crate):
        """The items of a crate under their headings, a type's methods behind the type."""
        found = self.items[crate]
        public = [it for it in found if self.is_public(crate, it)]
        laws = [it for it in public if "laws" in it.file.relative_to(ROOT / "crates" / crate / "src").with_suffix("").parts]
        rest = [it for it in public if it not in laws]
        types = [it for it in rest if not it.owner and it.kind in ("struct", "enum", "trait", "type")]
        order = {it.name: at for at, it in enumerate(types)}
        members = sorted((it for it in rest if it in types or it.owner), key=lambda it: (order.get(it.type or it.name, len(order)), bool(it.owner)))
        others = [it for it in rest if it not in members]
        return [
            ("Types", "types", members),
            ("Constants", "constants", [it for it in others if it.kind == "const"]),
            ("Functions", "functions", [it for it in others if it.kind != "const"]),
            ("Laws", "laws", laws),
            ("Inside the crate", "inside", [it for it in found if it not in public]),
        ]

    def page(self, crate):
        self.given = set()
        out, side = [self.prose(page_comment(crate), crate)], []
        if self.outside[crate]:
            given = (f'<a href="{source}.html#{name}"><code>{name}</code></a>' for name, source in sorted(self.outside[crate].items()))
            out.append(f"<p>Re-exports of the crates below: {', '.join(given)}.</p>")
        for title, anchor, found in self.groups(crate):
            if found:
                shown = "\n".join(self.shown(crate, it) for it in found)
                folded = anchor == "inside"
                out.append(f'<details><summary id="{anchor}">{title}: {len(found)} items that its users can\'t name</summary>{shown}</details>' if folded
                           else f'<h2 id="{anchor}">{title}</h2>{shown}')
                entries = [f'<li{" class=in" if it.owner else ""}><a href="#{it.anchor}">{it.name.replace("_", "_<wbr>")}</a></li>' for it in found]
                side.append(f'<b><a href="#{anchor}">{title}</a></b>' + ("" if folded else f'<ul>{"".join(entries)}</ul>'))
        if self.known[crate]:
            out.append('<h2 id="definitions">Definitions</h2><p class="faint">What contracts cite, from <code>specs/</code>.</p>')
            files = dict.fromkeys(file for file, _, _ in self.known[crate])
            side.append('<b><a href="#definitions">Definitions</a></b><ul>' + "".join(f'<li><a href="#specs.{it}">{it}</a></li>' for it in files) + "</ul>")
        last = ""
        for file, name, text in self.known[crate]:
            if file != last:
                out.append(f'<h3 id="specs.{file}">{file} <span class="faint">specs/{file}.antt</span></h3>')
                last = file
            if not text:
                out.append(f'<a id="{file}.{name}"></a>')
                continue
            words = brought((ROOT / "crates" / crate / "specs" / f"{file}.antt").read_text())
            out.append(f'<h4 id="{file}.{name}"><a href="#{file}.{name}"><code>{name}</code></a></h4>'
                       f'<section class="of">{code(text, lambda it: self.link(it, words, (crate, file)))}</section>')
        return whole(f"Crate <code>{crate}</code>", "".join(side), "\n".join(out), crate)

    def index(self):
        drawn = re.search(r"^## The map\n+```\n(.*?)^```", (ROOT / "docs" / "DESIGN.md").read_text(), re.M | re.S)[1]
        order = [name for line in drawn.split("\n") for name in re.split(r", | ", line.split("  ")[0]) if name in self.crates]

        def kind(crate):
            return next((at for at, (_, _, names) in enumerate(KINDS) if any(crate.startswith(it) for it in names.split())), 0)

        out, side = ["<p>The core of an IPsec gateway: IKEv2 and ESP, formally verified. Begin with <a href=\"gateway.html\">gateway</a>.</p>"], []
        for at, (title, told, _) in enumerate(KINDS):
            crates = [it for it in sorted(self.crates, key=lambda it: order.index(it) if it in order else len(order)) if kind(it) == at]
            rows = []
            for crate in crates:
                lines = page_comment(crate)
                first = " ".join(lines[: lines.index("")] if "" in lines else lines)
                sentence = re.split(r"(?<=\.)\s+(?=[A-Z\[`])", first)[0]
                rows.append(f'<dt><a href="{crate}.html"><code>{crate}</code></a></dt><dd>{self.inline(sentence, crate, "")}</dd>')
            out.append(f'<h2 id="kind-{at}">{title}</h2><p class="faint">{told}</p><dl>{"".join(rows)}</dl>')
            side.append(f'<b><a href="#kind-{at}">{title}</a></b><ul>' + "".join(f'<li><a href="{it}.html">{it}</a></li>' for it in crates) + "</ul>")
        return whole("Sukperin", "".join(side), "\n".join(out), "")


def whole(title, side, body, crate):
    back = '<p><a href="index.html">All crates</a></p>' if crate else ""
    return (f'<!doctype html><html lang=en><meta charset=utf-8><meta name=viewport content="width=device-width, initial-scale=1"><title>{crate or "Sukperin"}</title>'
            f"<style>{STYLE}</style><nav>{back}<details open><summary>On this page</summary><input type=search placeholder=Filter aria-label=Filter>{side}</details></nav>"
            f"<main><h1>{title}</h1>\n{body}</main>{SCRIPT}</html>\n")


def main():
    folder = pathlib.Path(sys.argv[1]) if len(sys.argv) > 1 else ROOT / "out" / "pages"
    folder.mkdir(parents=True, exist_ok=True)
    pages = Pages()
    for crate in pages.crates:
        (folder / f"{crate}.html").write_text(pages.page(crate))
    (folder / "index.html").write_text(pages.index())
    print("\n".join(sorted(pages.lost)) or f"{len(pages.crates)} pages in {folder}, {pages.linked} words are links")
    return 1 if pages.lost else 0


if __name__ == "__main__":
    sys.exit(main())
