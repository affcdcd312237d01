"""Compares `gw show` and `gw play` with the models, case by case, octet for octet.

    GW=path/to/gw python3 compare.py [--seed N] [--cases N] [--plant]
"""

import argparse
import os
import subprocess
import sys
import tempfile

import cases
from faults import FAULTS, ONE, SHOW

HERE = os.path.dirname(os.path.abspath(__file__))
COMMANDS = {SHOW: "show", ONE: "play"}
TIME_LIMIT = 60
SHOWN_LIMIT = 6000


class Program:
    def __init__(self, path, folder):
        self.path = path
        self.file = os.path.join(folder, "case")

    def run(self, words, given=b""):
        try:
            ended = subprocess.run([self.path, *words], input=given, capture_output=True, timeout=TIME_LIMIT)
        except subprocess.TimeoutExpired:
            return b"", f"no end within {TIME_LIMIT} s"
        # Nothing is said of words on standard error, so any there are a difference.
        return ended.stdout + ended.stderr, ended.returncode

    def answer(self, model, text, place):
        if place % 50 == 49:
            return self.run([COMMANDS[model], "/dev/stdin"], text)
        with open(self.file, "wb") as file:
            file.write(text)
        return self.run([COMMANDS[model], self.file])


def load(model, old="", new=""):
    """The model's answer, with a fault in place of a text of it."""
    with open(os.path.join(HERE, model + ".py")) as file:
        source = file.read()
    if old:
        if source.count(old) != 1:
            sys.exit(f"the text to be replaced stands {source.count(old)} times in {model}.py: {old!r}")
        source = source.replace(old, new)
    names = {"__name__": model}
    exec(compile(source, model + ".py", "exec"), names)
    return names["answer"]


def all_cases(seed, count):
    """Each with its name, its model and the file's octets."""
    for model, corners, drawn in (
        (SHOW, cases.show_corners(), cases.show_case),
        (ONE, cases.script_corners(), cases.script_case),
    ):
        for place, text in enumerate(corners):
            yield f"{model}, corner {place}", model, text
        for place in range(count):
            yield f"{model}, seed {seed}, case {place}", model, drawn(seed, place)


def shown(octets):
    text = octets.decode("ascii", "backslashreplace").replace("\r", "\\r").replace("\0", "\\0")
    if len(text) > SHOWN_LIMIT:
        return f"{text[:SHOWN_LIMIT]}\n.. {len(text)} characters in all\n"
    return text if text.endswith("\n") else text + "\n(no line end)\n"


def print_difference(name, text, expected, found):
    print(f"first difference: {name}")
    kept = os.path.join(tempfile.gettempdir(), f"second_opinion_{os.getpid()}")
    with open(kept, "wb") as file:
        file.write(text)
    print(f"--- the file ({len(text)} octets, kept as {kept})")
    print(shown(text), end="")
    for title, (printed, status) in (("the model", expected), ("the program", found)):
        print(f"--- {title}, status {status}")
        print(shown(printed), end="")


def command_line_differences(program, folder):
    """Names of those command lines that end otherwise than the documents say."""
    unread = (b"refused file\n", 1)
    unknown = (b"", 2)
    with open(program.file, "wb") as file:
        file.write(b"one\n")
    lines = [
        ([], unknown), (["show"], unknown), (["play"], unknown), (["help"], unknown), (["--help"], unknown),
        (["-h"], unknown), (["--version"], unknown), (["show", "--help"], unknown), (["play", "-h"], unknown),
        (["Play", program.file], unknown), (["play", program.file, program.file], unknown), ([program.file], unknown),
        (["show", folder + "/absent"], unread), (["play", folder + "/absent"], unread),
        (["show", folder], unread), (["play", folder], unread), (["play", ""], unread),
        (["play", program.file], (b"", 0)),
    ]
    for words, expected in lines:
        found = program.run(words)
        if found != expected:
            yield f"gw {' '.join(words)}: {expected} expected, {found} found"


def compare(program, folder, seed, count):
    models = {model: load(model) for model in COMMANDS}
    counts = {model: 0 for model in COMMANDS}
    different = 0
    first = None
    for place, (name, model, text) in enumerate(all_cases(seed, count)):
        counts[model] += 1
        expected, found = models[model](text), program.answer(model, text, place)
        if expected != found:
            different += 1
            first = first or (name, text, expected, found)
    for line in command_line_differences(program, folder):
        different += 1
        print(line)
    if first:
        print_difference(*first)
    print(f"{counts[SHOW]} cases of show, {counts[ONE]} scripts, {different} differ")
    return different == 0


def is_seen(answer, answered):
    """The name of the first case at which a model with a fault differs from the program."""
    for name, text, found in answered:
        try:
            if answer(text) != found:
                return name
        except Exception as error:
            return f"{name}, by {type(error).__name__}"
    return None


def plant(program, seed, count):
    answered = {model: [] for model in COMMANDS}
    for place, (name, model, text) in enumerate(all_cases(seed, count)):
        answered[model].append((name, text, program.answer(model, text, place)))
    # Where the models differ by themselves, a planted fault would seem seen whatever it is.
    for model in COMMANDS:
        where = is_seen(load(model), answered[model])
        if where:
            print(f"no fault planted, and yet a difference: {where}")
            return False
    seen = 0
    for name, model, old, new in FAULTS:
        where = is_seen(load(model, old, new), answered[model])
        seen += where is not None
        print(f"{'seen' if where else 'NOT SEEN'}: {model}: {name}" + (f" ({where})" if where else ""))
    print(f"{seen} of {len(FAULTS)} planted faults seen, within {count} cases of each kind")
    return seen == len(FAULTS)


def main():
    parser = argparse.ArgumentParser(description="Compares gw with the models of this folder.")
    parser.add_argument("--seed", type=int, default=1)
    parser.add_argument("--cases", type=int, default=1000, help="drawn cases of each kind")
    parser.add_argument("--plant", action="store_true", help="see whether planted faults are seen")
    options = parser.parse_args()
    path = os.environ.get("GW")
    if not path:
        sys.exit("GW must name the program")
    with tempfile.TemporaryDirectory() as folder:
        program = Program(os.path.abspath(path), folder)
        if options.plant:
            passed = plant(program, options.seed, options.cases)
        else:
            passed = compare(program, folder, options.seed, options.cases)
    sys.exit(0 if passed else 1)


if __name__ == "__main__":
    main()
