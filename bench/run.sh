#!/bin/sh
# Builds mgr, the generator of logs and a program in plain Rust, and measures `mgr show` against that:
# microseconds an operation, the ratios of user time and of peak memory, and how the cost of an
# operation grows (`bench/measure.py`); then what an edit of a document costs
# (`bench/edits.py`), a command of the editor by itself (`bench/commands.py`) and on a buffer
# (`bench/buffers.py`) and a frame of it (`bench/frames.py`), what a key of `mgr edit` costs
# (`bench/keys.py`), how long a live session takes to answer (`bench/live_sessions.py`), what its
# store is good or bad at (`bench/stores.py`), an exchange between two of them (`bench/exchange.py`),
# and what it costs to read and to write logs and exchanges (`bench/logs.py`), what a compaction makes
# of a log (`bench/compaction.py`), the commands that merge, mend and tell of notes
# (`bench/notes.py`), and random events at sites (`bench/worlds.py`).
# `make bench` calls it. A call by hand may say `--largest N`, to have `mgr show` measured on no log
# of more than N operations, and `--shape SHAPE`.
#
# It needs python3 and rustc. It ends with an error where the two programs write different bytes.
set -eu
cd "$(dirname "$0")/.."

for program in python3 rustc; do
    command -v "$program" >/dev/null || {
        echo "$program is not installed" >&2
        exit 1
    }
done

make build build/generate build/paged
(cd crates/bench_tasks && rt run -- edits order 1 1 </dev/null >/dev/null)
cp crates/bench_tasks/out/bench_tasks build/bench_tasks

python3 bench/measure.py "$@"
echo
python3 bench/edits.py
echo
python3 bench/commands.py
echo
python3 bench/buffers.py
echo
python3 bench/frames.py
echo
python3 bench/keys.py
echo
python3 bench/live_sessions.py
echo
python3 bench/stores.py
echo
python3 bench/exchange.py
echo
python3 bench/logs.py
echo
python3 bench/compaction.py
echo
python3 bench/notes.py
echo
exec python3 bench/worlds.py
