"""How texts, keys and operations are written in a scene, and read.

A text has `|` for a newline. `\\n` is one too, `\\t` a tab, `\\s` a blank (where one would be cut off),
`\\e` nothing, `\\xNN` a byte, `\\u{N}` a character, `\\20{ab}` is `ab` twenty times, and `\\|`, `\\/` and
`\\\\` are those signs.
"""

import json
import re

ESCAPE = re.compile(r"\\(x[0-9a-f]{2}|u\{[0-9a-f]+\}|(\d+)\{([^}]*)\}|.)")

NAMED = {"n": b"\n", "t": b"\t", "s": b" ", "e": b"", "|": b"|", "/": b"/", "\\": b"\\"}

KEYS = {
    "RET": b"\r", "SPC": b" ", "DEL": b"\x7f", "ESC": b"\x1b", "TAB": b"\t", "LFD": b"\n",
    "C-SPC": b"\0", "C-_": b"\x1f",
}

# A sign, or an escape; the identifier; and for an insertion its parent's. Then how many, and how far their counters are apart.
OPERATION = re.compile(
    r"(?:(\\x[0-9a-f]{2}|\\u\{[0-9a-f]+\}|\\.|.)(\d+)\.(\d+)<(\d+)\.(\d+)|-(\d+)\.(\d+))(?:\*(\d+)\+(\d+))?$"
)

# How many runs, each after the one before, and the first one's identifier, parent and text.
RUN = re.compile(r"run(?:\*(\d+))?:(\d+)\.(\d+)<(\d+)\.(\d+):(.*)$")

DELETIONS = re.compile(r"-(\d+)\.(\d+)\*(\d+)$")

END = re.compile(r"end:(\d+)$")

HEAD = b'{"op":"head","version":2}\n'


class Unreadable(Exception):
    """A line of a scene that says nothing that can be done."""


def text_of(written):
    """Returns the bytes of a text."""
    return b"".join(_pieces(written.replace("\\|", "\\x7c").replace("|", "\\n")))


def _pieces(written):
    end = 0
    for found in ESCAPE.finditer(written):
        yield written[end : found.start()].encode()
        yield text_of(found[3]) * int(found[2]) if found[2] else _escaped(found[1])
        end = found.end()
    yield written[end:].encode()


def _escaped(name):
    if name[0] == "x" and len(name) == 3:
        return bytes([int(name[1:], 16)])
    if name[0] == "u" and len(name) > 1:
        return chr(int(name[2:-1], 16)).encode()
    if name not in NAMED:
        raise Unreadable(f"no sign is written \\{name}")
    return NAMED[name]


def written_of(text):
    """Returns how bytes are written, so that what came can be put in a scene."""
    signs = text.decode("utf-8", "backslashreplace").replace("\\x", "\0x").replace("\\", "\\\\").replace("\0x", "\\x")
    signs = signs.replace("|", "\\|").replace("\n", "|").replace("\t", "\\t")
    signs = re.sub(r"[\0-\x1f\x7f]", lambda found: f"\\x{ord(found[0]):02x}", signs)
    signs = re.sub("^ | $", r"\\s", signs)
    return signs or "\\e"


def keys_of(written):
    """Returns the bytes of keys: `C-x`, `M-f`, `RET`, or what is typed as it stands.

    `C-f*3` is that key three times.
    """
    return b"".join(_key(word) for word in written.split())


def _key(word):
    key, star, times = word.rpartition("*")
    if star and key and times.isdigit():
        return _key(key) * int(times)
    if word in KEYS:
        return KEYS[word]
    if word.startswith("M-") and len(word) > 2:
        return b"\x1b" + _key(word[2:])
    if re.fullmatch(r"C-[@-_a-z]", word):
        return bytes([ord(word[2].upper()) & 31])
    return b"".join(_pieces(word))


def lines_of(written):
    """Returns the bytes of lines: `a1.1<0.0` inserts, `-1.1` deletes, `run:1.1<0.0:ab` is a run.

    `run*3:1.1<0.0:ab` are three such runs, each after the one before. `-1.1*3` is a run of three deletions, `head` begins an exchange, and `end:2` ends one. `a1.1<0.0*9+2` are nine
    insertions of `a`, each with a counter 2 above the one before, and `-1.1*9+2` nine such deletions.

    A word in quotes stands for itself, and a point takes away the last byte, as the newline of a line.
    """
    lines = b""
    for word in re.findall(r"'[^']*'|\S+", written):
        lines = lines[:-1] if word == "." else lines + _line(word)
    return lines


def _line(word):
    if word[0] == "'":
        return text_of(word[1:-1])
    if word == "head":
        return HEAD
    end = END.match(word)
    if end:
        return b'{"count":%d,"op":"end"}\n' % int(end[1])
    run = RUN.match(word)
    if run:
        return _runs(int(run[1] or 1), *map(int, run.groups()[1:5]), text=text_of(run[6]).decode())
    deletions = DELETIONS.match(word)
    if deletions:
        counter, replica, count = map(int, deletions.groups())
        return b'{"count":%d,"id":[%d,%d],"op":"dels"}\n' % (count, counter, replica)
    operation = OPERATION.match(word)
    if not operation:
        raise Unreadable(f"no line is written {word}")
    return _operations(*operation.groups())


def _runs(times, counter, replica, *parent, text):
    lines = b""
    for _ in range(times):
        said = json.dumps(text, ensure_ascii=False).encode()
        lines += b'{"id":[%d,%d],"op":"run","parent":[%d,%d],"text":%s}\n' % (counter, replica, *parent, said)
        counter += len(text)
        parent = counter - 1, replica
    return lines


def _operations(sign, counter, replica, parent, of, deleted, by, count, step):
    counters = [int(counter or deleted) + number * int(step or 0) for number in range(int(count or 1))]
    if deleted:
        return b"".join(b'{"id":[%d,%d],"op":"del"}\n' % (it, int(by)) for it in counters)
    sign = json.dumps(text_of(sign).decode(), ensure_ascii=False).encode()
    behind = int(replica), int(parent), int(of)
    return b"".join(b'{"char":%s,"id":[%d,%d],"op":"ins","parent":[%d,%d]}\n' % (sign, it, *behind) for it in counters)


def words_of(lines):
    """Returns how lines are written, so that what came can be put in a scene."""
    return " ".join(map(_word, lines.splitlines(keepends=True))) or "\\e"


def _word(line):
    if line == HEAD:
        return "head"
    insertion = re.match(rb'\{"char":("(?:[^"\\]|\\.)*"),"id":\[(\d+),(\d+)\],"op":"ins","parent":\[(\d+),(\d+)\]\}\n$', line)
    if insertion:
        sign = json.loads(insertion[1])
        written = {"\n": "\\n", " ": "\\s"}.get(sign) or written_of(sign.encode())
        return "%s%s.%s<%s.%s" % (written, *map(bytes.decode, insertion.groups()[1:]))
    deletion = re.match(rb'\{"id":\[(\d+),(\d+)\],"op":"del"\}\n$', line)
    if deletion:
        return "-%s.%s" % tuple(map(bytes.decode, deletion.groups()))
    run = re.match(rb'\{"id":\[(\d+),(\d+)\],"op":"run","parent":\[(\d+),(\d+)\],"text":("(?:[^"\\]|\\.)*")\}\n$', line)
    if run:
        text = written_of(json.loads(run[5]).encode()).replace(" ", "\\s")
        return "run:%s.%s<%s.%s:%s" % (*map(bytes.decode, run.groups()[:4]), text)
    deletions = re.match(rb'\{"count":(\d+),"id":\[(\d+),(\d+)\],"op":"dels"\}\n$', line)
    if deletions:
        count, counter, replica = map(bytes.decode, deletions.groups())
        return f"-{counter}.{replica}*{count}"
    end = re.match(rb'\{"count":(\d+),"op":"end"\}\n$', line)
    return f"end:{end[1].decode()}" if end else f"'{written_of(line)}'"
