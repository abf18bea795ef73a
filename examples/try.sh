#!/bin/sh
# A first edit: types a sentence through `mgr edit`, and shows the frame and the files. Then shows
# the text of two logs of one note, in either order, and fails where the texts differ: Alice wrote
# the note, Bob got her operations, and then both went on without the other's.
# The argument is a built mgr, of which two then exchange a note over a socket. With none, `rt try`
# compiles mgr and runs it, and proves nothing; it keeps no files and has no second mgr to meet, so
# neither is shown then.
set -eu
cd "$(dirname "$0")/.."

rm -rf build/try
mkdir -p build/try/cases
cat examples/note/alice.ops examples/note/bob.ops >build/try/cases/alice-first
cat examples/note/bob.ops examples/note/alice.ops >build/try/cases/bob-first
# The sentence, C-a M-c, and C-x C-s, which saves.
printf 'the quick brown fox\001\033c\030\023' >build/try/cases/keys
edit='edit notes --replica 1 --rows 5 --cols 50'

# The words of each run stand beside its input, one a line. Behind a line `== NAME` stands what mgr
# wrote for the input of that name.
run_unproved() {
    echo show >build/try/cases/alice-first.args
    echo show >build/try/cases/bob-first.args
    echo "$edit" | tr ' ' '\n' >build/try/cases/keys.args
    (cd crates/mgr && rt try --cases ../../build/try/cases) \
        >build/try/texts 2>build/try/said || return 1
    [ "$(grep -c '^case=.* run=ended status=0 ' build/try/said)" -eq 3 ] || return 1
    for name in alice-first bob-first keys; do
        awk -v name="$name" '/^== / { on = $0 == "== " name; next } on' build/try/texts \
            >"build/try/$name"
    done
}

# Alice writes and waits for a peer, at a port of this machine. Bob writes and saves, and then asks for
# the exchange until she waits. Each frame is the last one of its mgr.
exchange() {
    note="edit note --rows 5 --cols 50 --port $port"
    mkdir build/try/alice build/try/bob
    printf 'Buy oat milk\033xreplica-serve\r' >build/try/alice/keys
    printf 'Call the baker\r\030\023' >build/try/bob/keys
    printf '\033xreplica-exchange\r' >build/try/bob/keys-to-connect
    # shellcheck disable=SC2086
    (cd build/try/alice && exec "$mgr" $note --replica 1 <keys >frame) &
    alice=$!
    # shellcheck disable=SC2086
    (cd build/try/bob && "$mgr" $note --replica 2 <keys >frame)
    tries=0
    # shellcheck disable=SC2086
    until (cd build/try/bob && "$mgr" $note --replica 2 <keys-to-connect >frame && grep -q '^Sent' frame); do
        tries=$((tries + 1))
        [ "$tries" -lt 100 ] || { kill "$alice" 2>/dev/null; return 1; }
        sleep 0.1
    done
    wait "$alice"
}

if [ $# -eq 1 ]; then
    mgr=$(cd "$(dirname "$1")" && pwd)/$(basename "$1")
    "$mgr" show <build/try/cases/alice-first >build/try/alice-first
    "$mgr" show <build/try/cases/bob-first >build/try/bob-first
    # shellcheck disable=SC2086
    (cd build/try && "$mgr" $edit <cases/keys >keys)
else
    echo "compiling mgr, which takes a minute or two"
    run_unproved || { cat build/try/said >&2; exit 1; }
fi

echo "A sentence is typed, its first word capitalized, and the buffer saved. The frame:"
cat build/try/keys
if [ $# -eq 1 ]; then
    echo "The text is in build/try/notes:"
    cat build/try/notes
    echo
    echo "Its operations are in build/try/notes.ops, which begins so:"
    head -n 3 build/try/notes.ops
    "$mgr" show <build/try/notes.ops | cmp - build/try/notes
fi
echo
echo "Alice and Bob edited one note apart. The text of both logs, Alice's first:"
cat build/try/alice-first
echo "Bob's first:"
cat build/try/bob-first
cmp build/try/alice-first build/try/bob-first
echo "Both are the same."
if [ $# -eq 1 ]; then
    port=$((20000 + $$ % 10000))
    echo
    echo "Two mgr exchange a note, at port $port: Alice's waits, and Bob's connects."
    if exchange; then
        echo "Alice's frame:"
        cat build/try/alice/frame
        echo "Bob's:"
        cat build/try/bob/frame
        cmp build/try/alice/note build/try/bob/note
        echo "Both texts are the same."
    else
        echo "There was no exchange, as when no socket is allowed. Bob's frame:"
        cat build/try/bob/frame
    fi
fi
if [ $# -eq 0 ]; then
    echo "This mgr was run without its proof: \`make\` proves and builds it."
fi
