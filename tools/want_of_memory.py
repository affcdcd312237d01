#!/usr/bin/env python3
"""Refuses each allocation of crates/tool_memory in turn, alone and with all after it, and looks at what the program says of it: by which words
the step was refused that wanted it, E10, E20, E24 or E27, and whether those growths got them that should.

From anywhere, after (cd crates/tool_memory && rt run): python3 tools/want_of_memory.py. The C library's allocator is put aside by a small
library of C, which is built with cc. Alone, the program has to find that all is as with memory, or that memory was wanted for its own
lists (status 3). With all after it refused, it can only find that nothing was changed by what was refused (status 3). Then a thousand ESP
packets come while all memory is refused, a list of them that has no room for its outputs, and datagrams at fault by E1 to E9. It is no part
of the gate. Ends with status 1 where the program says anything else, or doesn't end by itself.
"""
import collections
import pathlib
import re
import subprocess
import sys
import tempfile

PROGRAM = pathlib.Path(__file__).resolve().parent.parent / "crates" / "tool_memory" / "out" / "tool_memory"

# Counts the calls, from 1, and refuses the one of number REFUSED, or all from it on where ONWARD is set.
ALLOCATOR = r"""
#define _GNU_SOURCE
#include <dlfcn.h>
#include <errno.h>
#include <stdio.h>
#include <stdlib.h>
#include <unistd.h>

static long calls, refused = -1, onward, mark = -1, marked, octets = -1;

__attribute__((constructor)) static void begin(void) {
    const char *number = getenv("REFUSED");
    if (number) refused = atol(number);
    onward = getenv("ONWARD") != NULL;
    const char *size = getenv("MARK");
    if (size) mark = atol(size);
}

__attribute__((destructor)) static void end(void) {
    const char *file = getenv("COUNTED");
    FILE *out = file ? fopen(file, "w") : NULL;
    if (out) {
        refused = -1;
        marked = 0;
        fprintf(out, "%ld %ld\n", calls, octets);
        fclose(out);
    }
}

// From a call for as many octets as the mark on all are refused, up to the next such call.
static int refuses(size_t size) {
    calls++;
    if ((long)size == mark) {
        marked = !marked;
        return 0;
    }
    if (calls == refused) octets = (long)size;
    if (marked) return 1;
    return refused > 0 && (onward ? calls >= refused : calls == refused);
}

#define NEXT(name) ((__typeof__(&name))dlsym(RTLD_NEXT, #name))

extern void *__libc_malloc(size_t), *__libc_calloc(size_t, size_t), *__libc_realloc(void *, size_t), *__libc_memalign(size_t, size_t);

void *malloc(size_t size) { return refuses(size) ? NULL : __libc_malloc(size); }
void *calloc(size_t count, size_t size) { return refuses(count * size) ? NULL : __libc_calloc(count, size); }
void *realloc(void *at, size_t size) { return refuses(size) ? NULL : __libc_realloc(at, size); }
void *aligned_alloc(size_t align, size_t size) { return refuses(size) ? NULL : __libc_memalign(align, size); }
int posix_memalign(void **at, size_t align, size_t size) {
    void *found = refuses(size) ? NULL : __libc_memalign(align, size);
    if (!found) return ENOMEM;
    *at = found;
    return 0;
}
"""

# What may be said, with its status.
AGAIN = r"all as with memory, one step refused and given again: (E\d+: .*)"
NOTHING = r"all as with memory, nothing refused"
WITHOUT = r"no memory"
ALONE = {AGAIN: 0, NOTHING: 0, WITHOUT: 3}
ONWARD = {NOTHING: 0, WITHOUT: 3}

# Of which growths each of these is said: how often, and how many octets are asked for. Two pairs of gateways go the way, and make three Child SAs
# each: so twelve SA pairs in four tables. Of all other growths E10 is said.
GROWTHS = {
    # Three packets by each of both. One is of 20 octets, before which ESP has 8, and behind which 2 of padding, 2 and an ICV of 16.
    "E20: no memory for the packet": {48: 6},
    # Each SA pair's window, of 128 blocks of 8 octets.
    "E20: no memory for the replay window": {1024: 12},
    # Both lists of each SA pair, of one selector of 64 octets. At the end that answers both lists that are narrowed, with places for four.
    "E24: no memory for the selectors": {64: 24, 256: 12},
    # In each table once: places for four SA pairs of 768 octets, and two lists by which they are found.
    "E27: no memory for the table": {3072: 4, 64: 4, 32: 4},
}
OTHERWISE = "E10: no memory"
# The mark of crates/tool_memory/src/thousand.rt, and what is said of it.
MARK = "7777777"
THOUSAND = (
    "without memory 1000 of 1000 packets went up; of a list of them: E38: no room after 0 inputs; "
    "9 of 9 datagrams that are no message told why",
    0,
)


def run(library, *words, **environment):
    ran = subprocess.run([PROGRAM, *words], env={"LD_PRELOAD": str(library), **environment}, capture_output=True, text=True, timeout=60)
    return ran.stdout.strip(), ran.returncode


# Reads how many calls there were, and for how many octets the refused one asked.
def counts(counted):
    return map(int, counted.read_text().split())


def is_allowed(said, status, allowed):
    return any(re.fullmatch(words, said) and status == wanted for words, wanted in allowed.items())


def main():
    with tempfile.TemporaryDirectory() as folder:
        room = pathlib.Path(folder)
        (room / "allocator.c").write_text(ALLOCATOR)
        library = room / "allocator.so"
        subprocess.run(["cc", "-O1", "-fPIC", "-shared", "-o", library, room / "allocator.c"], check=True)
        counted = room / "counted"
        print("with memory:", *run(library, COUNTED=str(counted)))
        calls, _ = counts(counted)
        wrong, growths = 0, collections.defaultdict(collections.Counter)
        for words, allowed in (({}, ALONE), ({"ONWARD": "1"}, ONWARD)):
            found = collections.Counter()
            for number in range(1, calls + 1):
                said = run(library, REFUSED=str(number), COUNTED=str(counted), **words)
                found[said] += 1
                if not is_allowed(*said, allowed):
                    wrong += 1
                    print(f"allocation {number}{' and all after it' if words else ''}: {said}")
                for text in re.findall(AGAIN, said[0]):
                    _, octets = counts(counted)
                    growths[text][octets] += 1
            print("with all after it refused:" if words else "each alone refused:")
            for (said, status), times in sorted(found.items()):
                print(f"  {times} times: {said} (status {status})")
        for text in sorted(GROWTHS.keys() | growths.keys() - {OTHERWISE}):
            if growths[text] != GROWTHS.get(text, {}):
                wrong += 1
                print(f"{text}: of growths of so many octets, so often: {dict(growths[text])}, and not {GROWTHS.get(text, {})}")
        if not growths[OTHERWISE]:
            wrong += 1
            print(f"nothing was refused as: {OTHERWISE}")
        said = run(library, "thousand", MARK=MARK)
        print("all refused:", *said)
        wrong += said != THOUSAND
    return 1 if wrong else 0


sys.exit(main())
