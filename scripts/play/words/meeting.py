"""A peer with a script."""

from play.notation import Unreadable, keys_of, lines_of, text_of, words_of, written_of
from play.peers import HOST, Peer, addresses, await_listener
from play.programs import Unexpected
from play.words.looks import says
from play.words.people import seen, session_of
from play.words.table import parted, word


@word
def peer(stage, about):
    """`peer waits | LINES` or `peer connects | LINES`: one that says this.

    After that word `breaks`: and breaks off; `hears N`: and breaks off once it has heard so many bytes. `pieces N`,
    in front of these: it says so many bytes at a time, and goes on once they are read.
    """
    how, text = parted(about)
    does, *more = how.split()
    most = int(more[1]) if more[:1] == ["pieces"] else None
    more = more[2:] if most else more
    hears = int(more[1]) if more[:1] == ["hears"] else None
    if stage.peer:
        stage.peer.end()
    stage.peer = Peer(stage.port, lines_of(text), more == ["breaks"], stage.person, hears, most)
    if does == "waits":
        stage.peer.wait()
    elif does == "connects":
        stage.peer.connect()
    else:
        raise Unreadable(f"no peer {does}")


@word
def heard(stage, about):
    """All that the peer heard."""
    stage.peer.end()
    stage.compare(lines_of(about), stage.peer.heard, words_of)


@word
def each_cut(stage, about):
    """Peers wait in turn that hear one byte more of these lines each time, never the last, and break off."""
    told = lines_of(parted(about)[1])
    for hears in range(len(told)):
        stage.peer = Peer(stage.port, b"", False, stage.person, hears)
        stage.peer.wait()
        session_of(stage).press(keys_of("M-x replica-exchange RET"))
        says(stage, "Socket fault")
        stage.peer.end()
        stage.compare(told[:hears], stage.peer.heard, words_of)


@word
def unmet(stage, about):
    """Nobody met the peer, and it is there no more."""
    seen(stage)
    stage.peer.leave()
    stage.compare("met by nobody", "met" if stage.peer.is_met else "met by nobody")


@word
def listens(stage, about):
    """Waits until somebody listens at the port, for this machine alone."""
    if not await_listener(stage.port):
        raise Unexpected("nobody listens at the port")
    stage.compare({HOST}, addresses(stage.port))


@word
def saw(stage, about):
    """`saw NAME | LINES`: the log as it stood when the peer heard its first byte."""
    name, text = parted(about)
    stage.peer.end()
    stage.compare(lines_of(text), stage.peer.seen.get(f"{name}.ops", b""), words_of)


@word
def saw_file(stage, about):
    """The same of any file."""
    name, text = parted(about)
    stage.peer.end()
    stage.compare(text_of(text), stage.peer.seen.get(name, b""), written_of)
