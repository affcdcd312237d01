#!/usr/bin/env python3
"""Compares what the exchanges of two gateways cost each end with what they have to cost. It builds and runs
crates/tool_work, whose providers count bodies opened and sealed, proofs made and checked, public values and
shared secrets computed, and prints a table of its steps.

From anywhere: python3 tools/work.py. What a step has to cost stands below, by RFC 7296 and the order of
refusals of docs/ERRORS.md, and not by what the program prints. Ends with status 1 where a step costs anything
else, is missing, or brings another output, and says which. It is no part of the gate.
"""
import pathlib
import re
import subprocess
import sys

CRATE = pathlib.Path(__file__).resolve().parent.parent / "crates" / "tool_work"

KINDS = ("opened", "sealed", "proved", "checked", "public values", "shared secrets")
OPENED, SEALED, PROVED, CHECKED, PUBLIC, SHARED = KINDS

# What a message under keys costs who sends a request, answers one, takes a response, or can't open it. A
# request that comes again is opened too, so that nobody without the keys has an answer sent again. But that
# is the answer which was sealed before.
ASKED = {SEALED: 1}
ANSWERED = {OPENED: 1, SEALED: 1}
TAKEN = {OPENED: 1}
UNOPENED = {OPENED: 1}
AGAIN = {OPENED: 1}
NOTHING = {}

# In IKE_SA_INIT each end computes a public value once, and once the secret that is shared, as soon as it has
# the other's public value (sections 1.2 and 2.14).
PUBLISHED = {PUBLIC: 1}
AGREED = {PUBLIC: 1, SHARED: 1}
AUTH_ASKED = {SHARED: 1, PROVED: 1, SEALED: 1}


def exchange(name):
    """The steps of an exchange under keys that A asks for, whose request comes twice."""
    return [
        (f"{name} asked", "A", ASKED),
        (f"{name} answered", "B", ANSWERED),
        (f"{name} request again", "B", AGAIN),
        (f"{name} response taken", "A", TAKEN),
    ]


# Each step with the end that takes it, and what it has to cost that end.
STEPS = [
    ("IKE_SA_INIT asked", "A", PUBLISHED),
    ("IKE_SA_INIT answered", "B", AGREED),
    # By its octets it is known (section 2.1), and nothing in it is sealed.
    ("IKE_SA_INIT request again", "B", NOTHING),
    ("IKE_SA_INIT response taken, IKE_AUTH asked", "A", AUTH_ASKED),
    # No request with its Message ID waits any more (E31), here and in each response that comes again.
    ("IKE_SA_INIT response again", "A", NOTHING),
    # Each end proves itself once, and has the other's proof checked once (section 2.15).
    ("IKE_AUTH answered", "B", {**ANSWERED, CHECKED: 1, PROVED: 1}),
    ("IKE_AUTH request again", "B", AGAIN),
    ("IKE_AUTH response taken", "A", {**TAKEN, CHECKED: 1}),
    ("IKE_AUTH response again", "A", NOTHING),
    *exchange("probe"),
    ("probe response again", "A", NOTHING),
    *exchange("second probe"),
    # Their Message IDs alone decide: E30 and E31.
    ("probe left behind", "B", NOTHING),
    ("probe past the window", "B", NOTHING),
    ("third probe asked", "A", ASKED),
    # The window is full (E35), so nothing is sealed that couldn't be sent.
    ("fourth probe asked too early", "A", NOTHING),
    ("third probe changed in its body", "B", UNOPENED),
    # No IKE SA has these SPIs (E28), or none in which the peer has that role (E33).
    ("third probe changed in its SPI", "B", NOTHING),
    ("third probe reflected", "A", NOTHING),
    ("third probe answered", "B", ANSWERED),
    ("third probe response changed in its body", "A", UNOPENED),
    ("third probe response taken", "A", TAKEN),
    # Its keys come from those of the IKE SA (section 2.17), so nothing is agreed on anew.
    *exchange("further child"),
    # Packets of ESP are no matter of the provider.
    ("packet out", "A", NOTHING),
    ("packet in", "B", NOTHING),
    *exchange("deletion of the child"),
    ("late probe asked", "A", ASKED),
    ("tick too early", "A", NOTHING),
    # The same octets go out again (section 2.1).
    ("tick at which it goes out again", "A", NOTHING),
    *exchange("late probe")[1:],
    *exchange("deletion of the IKE SA"),
    # An IKE SA that is over takes no new request (E32).
    ("request after the deletion", "B", NOTHING),
    ("IKE_SA_INIT in a crowd asked", "A", PUBLISHED),
    # Till the cookie comes back the responder computes nothing (section 2.6).
    ("IKE_SA_INIT in a crowd answered by a cookie", "B", NOTHING),
    # All payloads behind the cookie are unchanged (section 2.6). But an IKE SA that waits keeps the secret alone, so its
    # public value is computed once more for each cookie, of which it takes four at most.
    ("IKE_SA_INIT in a crowd asked again with it", "A", PUBLISHED),
    ("IKE_SA_INIT in a crowd answered with it", "B", AGREED),
    ("IKE_SA_INIT in a crowd response taken, IKE_AUTH asked", "A", AUTH_ASKED),
    ("IKE_SA_INIT changed on its way asked", "A", PUBLISHED),
    ("IKE_SA_INIT changed on its way answered", "B", AGREED),
    ("IKE_SA_INIT changed on its way response taken, IKE_AUTH asked", "A", AUTH_ASKED),
    # Whoever's proof is refused is told so (section 2.21.2), and gets no proof.
    ("IKE_AUTH in vain refused", "B", {**ANSWERED, CHECKED: 1}),
    ("IKE_AUTH in vain refusal taken", "A", TAKEN),
]

LINE = re.compile(r"(.+) at ([AB]): (.+)")


def costs(text):
    """How often each kind was asked for, by its name."""
    counts = (count.rsplit(" ", 1) for count in text.split(", "))
    return {kind: int(number) for kind, number in counts}


def run():
    """The steps that the program prints, as STEPS has them, and its exit status."""
    ran = subprocess.run(["rt", "run"], cwd=CRATE, stdout=subprocess.PIPE, text=True)
    lines = filter(None, map(LINE.fullmatch, ran.stdout.splitlines()))
    return [(words, end, costs(text)) for words, end, text in map(re.Match.groups, lines)], ran.returncode


def row(step):
    words, end, counts = step
    return f"| {words} | {end} | {' | '.join(str(counts.get(kind, '?')) for kind in KINDS)} |"


def differences(found, wanted):
    """What is wrong with the steps, by their names. Each name stands once in a list."""
    found = {(words, end): counts for words, end, counts in found}
    wanted = {(words, end): counts for words, end, counts in wanted}
    yield from (f"{words} at {end}: no such step" for words, end in wanted if (words, end) not in found)
    for (words, end), counts in found.items():
        if (words, end) not in wanted:
            yield f"{words} at {end}: nothing is known of this step"
            continue
        for kind in KINDS:
            count, due = counts.get(kind), wanted[words, end].get(kind, 0)
            if count != due:
                yield f"{words} at {end}: {kind} {count}, and not {due}"


def main():
    steps, status = run()
    print(f"| Step | End | {' | '.join(kind.capitalize() for kind in KINDS)} |")
    print("|---" * (2 + len(KINDS)) + "|", *map(row, steps), sep="\n")
    wrong = list(differences(steps, STEPS))
    if status:
        wrong.append(f"status {status}: the program wasn't built, or its last step brought another output")
    for line in wrong:
        print(f"not what it has to cost: {line}", file=sys.stderr)
    return 1 if wrong else 0


sys.exit(main())
