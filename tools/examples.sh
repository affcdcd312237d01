#!/bin/sh
# Looks whether the copies of examples/ that the gate plays (crates/tool_examples/data) are the same. Where the program is built
# (crates/gw/out/gw, after (cd crates/gw && rt run)), also plays each script and shows each message by it, and compares with what stands
# beside. From anywhere: sh tools/examples.sh
cd "$(dirname "$0")/.." || exit 2
gw=crates/gw/out/gw
failed=0
for example in examples/*; do
    cmp -s "$example" "crates/tool_examples/data/$(basename "$example")" || { echo "$example: another file in crates/tool_examples/data"; failed=1; }
done
for copy in crates/tool_examples/data/*; do
    [ -f "examples/$(basename "$copy")" ] || { echo "$copy: no such example"; failed=1; }
done
[ $failed = 0 ] || exit 1
[ -x $gw ] || { echo "the gate plays the examples as they are written"; exit 0; }
for script in examples/*.gw; do
    $gw play "$script" | cmp -s - "${script%.gw}.out" || { echo "$script: another output"; failed=1; }
done
for message in examples/*.hex; do
    $gw show "$message" | cmp -s - "${message%.hex}.shown" || { echo "$message: another output"; failed=1; }
done
[ $failed = 0 ] && echo "all examples as they are written"
exit $failed
