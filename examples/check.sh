#!/usr/bin/env bash
# Runs the program on each example and compares the answer with the one beside it.
set -u
here=$(cd "$(dirname "${BASH_SOURCE[0]}")" && pwd)
program=$here/../crates/tizlumed/out/tizlumed
# The gate leaves the program; `rt run` would prove all below it once more.
if [ ! -x "$program" ] && ! (cd "$here/../crates/tizlumed" && rt run -- --version) > /dev/null; then
    echo "examples: the program was not built" >&2
    exit 1
fi
failed=0
# answers COMMAND NAME ANSWER: whether the program's answer to the example is the one in the file.
answers() {
    if "$program" "$1" < "$here/$2.script" | cmp -s - "$3"; then
        echo "example $2, $1: as it has to be"
    else
        echo "example $2, $1: the answer differs" >&2
        failed=1
    fi
}
for script in "$here"/*.script; do
    name=$(basename "$script" .script)
    answers eval "$name" "$here/$name.answer"
    for command in check plan; do
        if [ -e "$here/$name.$command" ]; then
            answers "$command" "$name" "$here/$name.$command"
        fi
    done
done
exit $failed
