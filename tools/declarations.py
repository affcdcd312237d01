#!/usr/bin/env python3
"""Compares what four texts declare of the C library: the exports of crates/sukperin, the header, and the bindings for Rust and Python.

    python3 tools/declarations.py

Calls are compared by names, by their parameters in order, and by what they answer; records by their fields in order; kinds of outputs,
codes and refusals by numbers, refusals by their texts too. It reads sources alone, needs no library, and ends with status 1 where two
texts differ.
"""
import ast
import re
import sys
from pathlib import Path

ROOT = Path(__file__).resolve().parent.parent
CRATE = ROOT / "crates/sukperin/src"
HEADER = ROOT / "bindings/c/sukperin.h"
RUST = ROOT / "bindings/rust/src"
PYTHON = ROOT / "bindings/python/sukperin"

# One record's names in the crate, the header, Rust and Python. A handle is one record of the crate, and two elsewhere.
RECORDS = [
    ("SukSealed", "suk_sealed", "Sealed", "SealedRecord"),
    ("SukOpened", "suk_opened", "Opened", "OpenedRecord"),
    ("SukTerms", "suk_terms", "Terms", "TermsRecord"),
    ("SukEntry", "suk_entry", "Entry", "EntryRecord"),
    ("SukFresh", "suk_fresh", "Fresh", "FreshRecord"),
    ("SukOutput", "suk_output", "Output", "OutputRecord"),
    ("SukPlace", "suk_place", "Place", "PlaceRecord"),
    ("SukMessage", "suk_message_told", "Message", "MessageRecord"),
    ("SukChild", "suk_child", "Child", "ChildRecord"),
    ("SukSelector", "suk_selector_told", "Selector", "SelectorRecord"),
    ("SukAssociation", "suk_ike_association", "Association", "IkeAssociationRecord"),
    ("SukKeys", "suk_keys_told", "Keys", "KeysRecord"),
]
HANDLES = ({"SukHandle"}, {"suk_gateway", "suk_association"}, {"Gateway", "End"}, {"GatewayHandle", "AssociationHandle"})
HANDLE = [("private_at", "pointer"), ("private_live", "bool")]
HEADER_SCALARS = {"uint8_t": "u8", "uint16_t": "u16", "uint32_t": "u32", "uint64_t": "u64", "size_t": "usize", "bool": "bool"}
PYTHON_SCALARS = {"c_uint8": "u8", "c_uint16": "u16", "c_uint32": "u32", "c_uint64": "u64", "c_size_t": "usize", "c_bool": "bool"}

differences = []


def differ(text):
    differences.append(text)
    print(text)


def without_comments(text):
    return re.sub(r"//[^\n]*", "", re.sub(r"/\*.*?\*/", " ", text, flags=re.S))


def split(text):
    """Parts between commas that stand in no brackets."""
    parts, depth, part = [], 0, ""
    for sign in text:
        depth += (sign in "([{<") - (sign in ")]}>")
        if sign == "," and depth == 0:
            parts.append(part.strip())
            part = ""
        else:
            part += sign
    return [part for part in parts + [part.strip()] if part]


def name_of(word, column):
    """One name for a record in all four texts."""
    if word in HANDLES[column]:
        return "handle"
    return next((names[1] for names in RECORDS if names[column] == word), word)


# ---- Each text as calls {name: (answer, [parameters])} and records {name: [(field, type)]} ----


def crate_type(text):
    """The C parameters of one of the crate."""
    text = text.replace("'a ", "")
    if text == "Global":
        return []
    reference = re.fullmatch(r"&(mut )?(.*)", text)
    if not reference:
        return [text]
    sign = "*mut " if reference[1] else "*const "
    inner = reference[2]
    if listed := re.fullmatch(r"\[([^;]+)\]", inner):
        return [sign + name_of(listed[1], 0), "usize"]
    if array := re.fullmatch(r"\[([^;]+);.*\]", inner):
        return [sign + array[1]]
    return [sign + name_of(inner, 0)]


def crate():
    text = without_comments("\n".join(path.read_text() for path in sorted(CRATE.rglob("*.rt"))))
    calls, records = {}, {}
    for name, parameters, answer in re.findall(r'pub extern "C" fn (\w+)\((.*?)\)(?:\s*->\s*(\w+))?\s*(?=ensures|requires|\{)', text, flags=re.S):
        kinds = [kind for part in split(parameters) for kind in crate_type(part.split(":", 1)[1].strip())]
        calls[name] = (answer or "nothing", kinds)
    for name, fields in re.findall(r"#\[repr\(C\)\][^{;]*?pub struct (Suk\w+) \{(.*?)\n\}", text, flags=re.S):
        records[name_of(name, 0)] = [tuple(word.strip() for word in field.removeprefix("pub ").split(":", 1)) for field in split(fields)]
    return calls, records


def header():
    text = without_comments(HEADER.read_text())
    calls, records = {}, {}
    for answer, name, parameters in re.findall(r"\b(uint32_t|void) (suk_\w+)\(([^;{]*?)\);", text):
        kinds = []
        for part in split(" ".join(parameters.split())):
            words = re.findall(r"\w+", part)
            base = next(word for word in words if word != "const")
            kind = HEADER_SCALARS.get(base, name_of(base, 1))
            if "*" in part or "[" in part:
                kind = ("*const " if "const" in words else "*mut ") + kind
            kinds.append(kind)
        calls[name] = ("nothing" if answer == "void" else "u32", kinds)
    for fields, name in re.findall(r"typedef struct \{(.*?)\} (\w+);", text, flags=re.S):
        listed = []
        for line in fields.split(";"):
            words = line.split(None, 1)
            for word in split(words[1]) if len(words) == 2 else []:
                field = re.fullmatch(r"(\*?)(\w+)(?:\[(\d+)\])?", word)
                kind = "pointer" if field and field[1] else HEADER_SCALARS.get(words[0], words[0])
                if field:
                    listed.append((field[2], f"[{kind}; {field[3]}]" if field[3] else kind))
        records[name_of(name, 1)] = listed
    return calls, records


def rust():
    text = without_comments((RUST / "ffi.rs").read_text())
    calls, records = {}, {}
    for name, parameters, answer in re.findall(r"pub fn (suk_\w+)\((.*?)\)(?:\s*->\s*(\w+))?;", text, flags=re.S):
        kinds = []
        for part in split(parameters):
            kind = part.split(":", 1)[1].strip()
            if pointer := re.fullmatch(r"(\*const |\*mut )(?:\[(\w+); \d+\]|(\w+))", kind):
                kind = pointer[1] + (pointer[2] or name_of(pointer[3], 2))
            kinds.append(kind)
        calls[name] = (answer or "nothing", kinds)
    for name, fields in re.findall(r"#\[repr\(C\)\][^{;]*?pub struct (\w+) \{(.*?)\n\}", text, flags=re.S):
        listed = [tuple(word.strip() for word in field.removeprefix("pub ").split(":", 1)) for field in split(fields)]
        records[name_of(name, 2)] = [(field, "pointer" if kind.startswith("*") else kind) for field, kind in listed]
    return calls, records


def python_type(node):
    """A pointer to octets has no name in Python: it is told as `*`."""
    text = ast.unparse(node)
    if text in ("c_char_p", "c_void_p"):
        return "*"
    if inner := re.fullmatch(r"POINTER\((\w+)\)", text):
        return "* " + PYTHON_SCALARS.get(inner[1], name_of(inner[1], 3))
    if array := re.fullmatch(r"(\w+) \* (\d+)", text):
        return f"[{PYTHON_SCALARS.get(array[1], array[1])}; {array[2]}]"
    return PYTHON_SCALARS.get(text, "nothing" if text == "None" else text)


def python():
    calls, records = {}, {}
    for node in ast.parse((PYTHON / "_library.py").read_text()).body:
        if isinstance(node, ast.AnnAssign) and ast.unparse(node.target) == "CALLS":
            for name, told in zip(node.value.keys, node.value.values):
                answer, parameters = told.elts
                calls[name.value] = (python_type(answer), [python_type(part) for part in parameters.elts])
        if isinstance(node, ast.ClassDef) and any(ast.unparse(base) == "Structure" for base in node.bases):
            fields = node.body[-1].value.elts
            listed = [(field.elts[0].value, python_type(field.elts[1])) for field in fields]
            records[name_of(node.name, 3)] = [(name, "pointer" if kind == "*" else kind) for name, kind in listed]
    return calls, records


# ---- Comparing ----


def same_parameter(wanted, told):
    if wanted.startswith("*") and told.startswith("*") and not told.startswith(("*const ", "*mut ")):
        return told == "*" or told.split()[-1] == wanted.split()[-1]
    return wanted == told


def compare_calls(place, wanted, told):
    for name in sorted(wanted.keys() - told.keys()):
        differ(f"{place}: {name} isn't declared")
    for name in sorted(told.keys() - wanted.keys()):
        differ(f"{place}: {name} is no export of the crate")
    for name in sorted(wanted.keys() & told.keys()):
        (answer, parameters), (own_answer, own_parameters) = wanted[name], told[name]
        if answer != own_answer:
            differ(f"{place}: {name} answers {own_answer}, in the crate {answer}")
        if len(parameters) != len(own_parameters):
            differ(f"{place}: {name} has {len(own_parameters)} parameters, in the crate {len(parameters)}")
        for number, (one, other) in enumerate(zip(parameters, own_parameters), 1):
            if not same_parameter(one, other):
                differ(f"{place}: parameter {number} of {name} is {other}, in the crate {one}")


def compare_records(place, wanted, told):
    names = {names[1] for names in RECORDS}
    for name in sorted((wanted.keys() | told.keys()) - {"handle"}):
        if name not in names and not is_own(place, name):
            differ(f"{place}: the record {name} is none that this script knows")
        elif name in wanted and name not in told:
            differ(f"{place}: {name} isn't declared")
        elif name not in wanted and not is_own(place, name):
            differ(f"{place}: {name} is no record of the crate")
        elif name in wanted and wanted[name] != told[name]:
            pairs = zip(wanted[name] + [("no more", "")], told[name] + [("no more", "")])
            one, other = next((one, other) for one, other in pairs if one != other)
            differ(f"{place}: {name} has {' '.join(other)} where the crate has {' '.join(one)}")
    if told.get("handle", HANDLE) != HANDLE:
        differ(f"{place}: a handle is {told['handle']}")


def is_own(place, name):
    """Records of the header's inline functions, which cross to nothing."""
    return place == "the header" and name in ("suk_octets", "suk_config")


def numbers_by_name(pattern, text):
    return {name.upper(): int(number) for number, name in re.findall(pattern, text)}


def compare(what, place, wanted, told):
    for key in sorted(wanted.keys() | told.keys(), key=str):
        if wanted.get(key) != told.get(key):
            differ(f"{place}: {what} {key} is {told.get(key)!r}, in the header {wanted.get(key)!r}")


def header_enum(text, first):
    """The names and numbers of the enum that begins with this name."""
    body = re.search(r"enum \{\s*(" + first + r"\b[^}]*)\}", text)
    numbers, last = {}, -1
    for part in split(body[1]) if body else []:
        name, _, number = (word.strip() for word in part.partition("="))
        last = int(number) if number else last + 1
        numbers[name.removeprefix("SUK_").removeprefix("E_")] = last
    return numbers


def python_value(file, name):
    for node in ast.parse((PYTHON / file).read_text()).body:
        if isinstance(node, ast.Assign) and ast.unparse(node.targets[0]) == name:
            return ast.literal_eval(node.value)
    return {}


def python_enum(file, name):
    classes = [node for node in ast.parse((PYTHON / file).read_text()).body if isinstance(node, ast.ClassDef) and node.name == name]
    assigned = [node for found in classes for node in found.body if isinstance(node, ast.Assign)]
    return {ast.unparse(node.targets[0]): ast.literal_eval(node.value) for node in assigned}


def compare_numbers():
    text = without_comments(HEADER.read_text())
    crate_text = without_comments("\n".join(path.read_text() for path in sorted(CRATE.rglob("*.rt"))))
    ffi = (RUST / "ffi.rs").read_text()
    errors = (RUST / "error.rs").read_text()

    kinds = header_enum(text, "SUK_REPLY")
    if kinds:
        compare("kind", "the crate", kinds, kinds_of_crate(crate_text))
        actions = header_enum(text, "SUK_DISCARD")
        compare("action", "the crate", actions, numbers_by_name(r"(\d+) => Some\(Action::(\w+)\)", crate_text))
        rust_numbers = {name: int(number) for name, number in re.findall(r"pub const SUK_(\w+): u(?:8|32) = (\d+);", ffi)}
        compare("kind or action", "Rust", {**kinds, **actions}, rust_numbers)
        compare("kind", "Python", kinds, {name: number for number, name in python_value("outputs.py", "KINDS").items()})
        compare("action", "Python", actions, python_enum("settings.py", "Action"))

    told = {"the header": re.search(r"SUK_ROOM\(length\) \(\(length\) \+ (\d+)\)", text)}
    told["Rust"] = re.search(r"ESP_OCTETS: usize = (\d+)", (RUST / "lib.rs").read_text())
    told["Python"] = re.search(r"ESP_OCTETS = (\d+)", (PYTHON / "association.py").read_text())
    more = set(re.findall(r"const PACKET_MORE: usize = (\d+)", crate_text))
    for place, found in told.items():
        if not found or {found[1]} != more:
            differ(f"{place}: a packet needs {found and found[1]} octets more, in the crate {' or '.join(sorted(more))}")

    texts = {int(number): told for number, told in re.findall(r'case (\d+): return "([^"]*)";', text)}
    codes = set(header_enum(text, "SUK_OK").values()) - {0}
    for code in sorted(codes - texts.keys()):
        differ(f"the header: code {code} has no text")
    in_crate = {int(number) for number in re.findall(r"=> (1\d\d|20|28)\b", crate_text)}
    for code in sorted(in_crate - codes - {28}):
        differ(f"the header: the crate's code {code} isn't there")
    for code in sorted(code for code in codes - in_crate - {105}):
        differ(f"the header: code {code} is none of the crate")

    refusals = {number: told for number, told in texts.items() if 1 <= number <= 39}
    rust_texts = re.search(r"const TEXTS: .*?= \[(.*?)\];", errors, flags=re.S)
    rust_refusals = dict(ast.literal_eval("[" + rust_texts[1] + "]")) if rust_texts else {}
    compare("refusal", "Rust", refusals, rust_refusals)
    compare("refusal", "Python", refusals, python_value("refusals.py", "REFUSALS"))
    of_calls = {number: told for number, told in texts.items() if number >= 101 and number != 105}
    compare("code", "Python", of_calls, python_value("refusals.py", "CODES"))
    rust_codes = {int(number) for number in re.findall(r"Error::\w+ => (\d+),", errors)}
    for code in sorted(rust_codes ^ (codes - {105})):
        differ(f"Rust: code {code} is {'no' if code in rust_codes else 'not there, but a'} code of the header")


def kinds_of_crate(text):
    """Each output's number, as the crate writes it into the record: the one in the arm of its case."""
    arms = re.findall(r"(?<!Suk)Output::(\w+)\b.*?(?:of_kind|with_code)\((\d+)", text, flags=re.S)
    return {name.upper(): int(number) for name, number in arms}


def main():
    calls, records = crate()
    if not calls:
        differ("the crate: no export was found")
    for place, read in (("the header", header), ("Rust", rust), ("Python", python)):
        own_calls, own_records = read()
        compare_calls(place, calls, own_calls)
        compare_records(place, records, own_records)
    compare_numbers()
    if differences:
        print(f"{len(differences)} differences")
        return 1
    print(f"{len(calls)} calls and {len(records)} records agree")
    return 0


if __name__ == "__main__":
    sys.exit(main())
