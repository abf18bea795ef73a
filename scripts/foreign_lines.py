"""Lines that others may send, and no honest one does: no operations, odd ones, and what says something odd."""

import itertools
import json
import sys

from terminal import ROOT

sys.path.insert(0, str(ROOT / "front"))

from mgr_front.wire import said  # noqa: E402

# The number of whoever attacks, below those that honest ones draw.
EVE = 77
# So many characters a run has at most; so far the counters of two lines are apart.
RUN, APART = 4096, 32
# What has no place on a terminal that is another's: a title, a style, a bell, C1 controls, and what turns text around.
RAW = ("\x1b]0;owned\x07", "\x1b[5;41m", "\x9b5m", "\x9d0;owned\x9c", "\x07", "\x7f")
RAW += ("\u202e", "\u2066", "\u200f", "\u061c", "\u2028")

# In place of a character, of a counter, of a replica, of a parent and of how many are deleted.
SIGNS = (rb"\q", b"\x01", b"\x1b[5m", b"\xff", rb"\ud800", b"\xed\xa0\x80", b"ab", b"", b"\0")
COUNTERS = (b"04", b"-1", b"1.0", b"1e3", b"1e999", b"NaN", b"Infinity", b"0", b"9" * 16, b"9" * 5000, b'"1"', b"null")
REPLICAS = (b"0", b"077", b"65536", b"99999", b"true", b"77,1")
PARENTS = ([1 << 50, 7], [0, 7], [0], [], None, [[0, 0]], [0.0, 0], ["0", 0])
COUNTS = (b"0", b"9999", b"04", b"-1", b"1.0")
# No objects, or nested beyond any reader, or too long.
OTHERS = (b"[" * 30_000, b'{"op":' * 9000, b'{"op":"' + b"x" * 70_000, b"{", b"null", b"5", b"[]")
OTHERS += (b"\xff" * 9, b"\r", b"", b"\0" * 9)
# Texts that are operations all the same; a terminal shows them otherwise.
TEXTS = ("\x1b", "\u202e", "\u2066", "\u202e\u2066x", "\x1b]0;owned\x07x", "\U0001f469\u200d\U0001f52c", "\u2028")
# In place of a member of a saying, and of which.
SAYINGS = {"alive": "digest", "claims": "text", "leave": "replica", "lines": "lines"}
MEMBERS = (None, 5, "x", [], {}, [[]], True, -1, 1e99, "9" * 400)


def insertion(counter, replica=EVE, text="x", **more):
    """Returns an insertion in front of all, or a run of them."""
    kind = {"op": "run", "text": text} if len(text) > 1 else {"char": text, "op": "ins"}
    members = kind | {"id": [counter, replica], "parent": [0, 0]} | more
    return json.dumps(members, separators=(",", ":"), sort_keys=True, ensure_ascii=False).encode()


def flood(count, replica=EVE, size=1):
    """Returns lines with so many identifiers in all, each with so many."""
    return b"".join(insertion(at, replica, "x" * size) + b"\n" for at in range(1000, 1000 + count, size))


def odd_operations(counter):
    """Returns lines that look like operations, some of which are."""
    usual = insertion(counter)
    made = [usual.replace(b'"x"', b'"%b"' % sign) for sign in SIGNS]
    made += [usual.replace(b"[%d," % counter, b"[%b," % number) for number in COUNTERS]
    made += [usual.replace(b",%d]" % EVE, b",%b]" % number) for number in REPLICAS]
    made += [insertion(counter, parent=parent) for parent in ([counter, EVE], *PARENTS)]
    made += [b'{"count":%b,"id":[1,77],"op":"dels"}' % count for count in COUNTS]
    made += [insertion(counter, extra=1), insertion((1 << 53) - 1), insertion(counter, text="x" * 70_000)]
    return made + [insertion(counter, text=text) for text in ("xx" * RUN, *TEXTS)]


def odd_sayings():
    """Returns what may be said, of members that are none, and of names that are none for a terminal."""
    here = {"op": "place", "place": [0, 0, 1]}
    made = [here | {"replica": number, "name": name} for number, name in enumerate(RAW, 100)]
    for op, member in SAYINGS.items():
        made += [{"op": op, member: each} for each in MEMBERS]
    made += [{"op": "place", "replica": each, "name": each, "place": each} for each in MEMBERS]
    places = [1, 2, "3"], [1, 2], [1 << 60, 1, 1], [True] * 3
    made += [{"op": "place", "replica": 99, "name": "eve", "place": place} for place in places]
    return made + [{"op": each} for each in MEMBERS] + [{"op": "claims", "text": "x", "more": [1]}]


def foreign(chance, counter):
    """Returns a line that is foreign, or an operation of which a byte is another one."""
    if chance.random() < 0.7:
        return chance.choice([*odd_operations(counter), *OTHERS, *(said(**each)[:-1] for each in odd_sayings())])
    # Its identifier stays: two that differ under one would be a conflict, which ends writing together by right.
    line, named = insertion(counter), b"[%d,%d]" % (counter, EVE)
    begin, end = line.index(named), line.index(named) + len(named)
    at = chance.choice([*range(begin), *range(end, len(line))])
    return line[:at] + bytes([chance.choice([*range(10), *range(11, 256)])]) + line[at + 1 :]


def foreign_lines(chance):
    """Yields such lines with rising counters, among some in which nothing is wrong."""
    for counter in itertools.count(1000, APART):
        yield insertion(counter) if chance.random() < 0.1 else foreign(chance, counter)


def messages(chance):
    """Yields what may be said on a channel of Redis."""
    says, here = odd_sayings(), {"op": "place", "by": "eve", "place": [0, 0, 1]}
    others = b"\xff\xfe", b"[" * 30_000, b"5", b"null", b'{"op":NaN}', b"9" * 5000, b'"x"', b""
    for line, number in zip(foreign_lines(chance), itertools.cycle(range(1, 60_000))):
        name = here | {"replica": number, "name": f"{chance.choice(RAW)}eve"}
        lines = {"op": "lines", "by": "eve", "lines": line.decode("utf-8", "replace")}
        said_so = chance.choice((name, lines, {"op": "entry"}, chance.choice(says)))
        yield chance.choice((json.dumps(said_so).encode(), line, *others))
