"""What carries a note between four who write in it, and what may be done to that meanwhile."""

import http.server
import os
import shutil
import signal
import socket
import subprocess
import sys
import threading
import time

from line import Line
from play.peers import HOST, free_port
from terminal import ROOT, children, environment

sys.path.insert(0, str(ROOT / "front"))

from mgr_front.channels.stream import library, trim  # noqa: E402
from mgr_front.notes import Refused  # noqa: E402

HUB = ROOT / "front" / "mgr-hub"
SSHD = "/usr/sbin/sshd"
# The delay of a line that is slow, and for how long a line is cut once.
SLOW, LONG = 0.3, 60.0
# So many MB a program of a hub may have at most.
MOST_MEMORY = 300
SECONDS = 120


def fail(what):
    sys.exit(f"NOT AS IT SHOULD BE: {what}")


def await_that(what, is_so, seconds=SECONDS, pause=0.02):
    """Waits until something is so, and looks again after each pause."""
    end = time.monotonic() + seconds
    while not is_so():
        if time.monotonic() > end:
            fail(what)
        time.sleep(pause)


# ---- servers of this machine

started = []


def start(command, **how):
    """Starts a server, in a session of its own."""
    started.append(subprocess.Popen(command, start_new_session=True, **how))
    return started[-1]


def stop_all():
    """Ends what still runs."""
    for process in started:
        if process.poll() is None:
            os.killpg(process.pid, signal.SIGKILL)
            process.wait()


class Hub:
    """A mgr-hub that runs, and what it printed."""

    def __init__(self, mgr, folder, port):
        self.folder, self.port, self.mgr = folder, port, mgr
        self.words = environment(mgr, folder)
        self.printed = folder / "printed"
        self.begin()

    def begin(self):
        served = sum("serves" in line for line in self.lines())
        with open(self.printed, "a") as out:
            command = [HUB, "note", "--port", str(self.port), "--replica", "9"]
            self.process = start(command, cwd=self.folder, env=self.words, stdout=out, stderr=out)
        await_that("the hub begins", lambda: sum("serves" in line for line in self.lines()) > served)

    def _signal(self, number):
        """Gives it and its mgr a signal, as a service manager or the kernel does; returns its status."""
        for program in (*children(self.process.pid), self.process.pid):
            os.kill(program, number)
        return self.process.wait(SECONDS)

    def kill(self):
        self._signal(signal.SIGKILL)

    def end(self):
        """Ends it by TERM; returns how long that takes."""
        begun = time.monotonic()
        if self.process.poll() is None and (status := self._signal(signal.SIGTERM)):
            fail(f"the hub ended with status {status}: {self.lines()[-3:]}")
        return time.monotonic() - begun

    def lines(self):
        return self.printed.read_text().splitlines() if self.printed.exists() else []


SERVER = """
Port {port}
ListenAddress 127.0.0.1
HostKey {folder}/host
AuthorizedKeysFile {folder}/allowed
StrictModes no
PidFile none
"""
CLIENT = """
Host hub.example
    HostName 127.0.0.1
    Port {line}
    IdentityFile {folder}/key
    IdentitiesOnly yes
    UserKnownHostsFile {folder}/known
    StrictHostKeyChecking accept-new
"""


class Sshd:
    """A real sshd of this machine, which lets one key do one command, and a `ssh` that goes there by a line."""

    def __init__(self, folder, command):
        self.folder, port = folder, free_port()
        self.line = Line(port)
        folder.mkdir()
        for name in ("host", "key"):
            subprocess.run(["ssh-keygen", "-q", "-t", "ed25519", "-N", "", "-f", folder / name], check=True)
        (folder / "allowed").write_text(f'restrict,command="{command}" {(folder / "key.pub").read_text()}')
        (folder / "sshd").write_text(SERVER.format(port=port, folder=folder))
        (folder / "config").write_text(CLIENT.format(line=self.line.port, folder=folder))
        (folder / "ssh").write_text(f'#!/bin/sh\nexec /usr/bin/ssh -F {folder}/config "$@"\n')
        (folder / "ssh").chmod(0o755)
        os.makedirs("/run/sshd", exist_ok=True)
        self.begin()

    def begin(self):
        self.process = start([SSHD, "-D", "-f", self.folder / "sshd", "-E", self.folder / "daemon"])

    def kill(self):
        """Kills it, and those who are there by it."""
        for program in (self.process.pid, *children(self.process.pid)):
            os.kill(program, signal.SIGKILL)
        self.process.wait()

    @staticmethod
    def is_there():
        return os.path.exists(SSHD)


# What a request's headers are to git's http-backend.
HEADERS = {"CONTENT_TYPE": "Content-Type"}
HEADERS |= {f"HTTP_{name.upper().replace('-', '_')}": name for name in ("Content-Encoding", "Git-Protocol")}


class GitOverHttp(http.server.BaseHTTPRequestHandler):
    """Repositories of a folder over http, by git's own http-backend."""

    protocol_version = "HTTP/1.1"

    def do_GET(self):
        path, _, query = self.path.partition("?")
        size = self.headers.get("Content-Length") or "0"
        given = self.rfile.read(int(size))
        words = {"GIT_PROJECT_ROOT": str(self.server.root), "GIT_HTTP_EXPORT_ALL": "1", "PATH_INFO": path}
        words |= {"QUERY_STRING": query, "REQUEST_METHOD": self.command, "CONTENT_LENGTH": size}
        for variable, name in HEADERS.items():
            words[variable] = self.headers[name] or ""
        done = subprocess.run(["git", "http-backend"], env=os.environ | words, input=given, capture_output=True)
        head, _, body = done.stdout.partition(b"\r\n\r\n")
        members = [line.partition(": ") for line in head.decode().split("\r\n")]
        self.send_response(int({name: rest for name, _, rest in members}.get("Status", "200").split()[0]))
        for name, _, rest in members:
            self.send_header(name, rest)
        self.send_header("Content-Length", str(len(body)))
        self.end_headers()
        self.wfile.write(body)

    do_POST = do_GET

    def log_message(self, *_):
        pass


# ---- engines


class Engine:
    """What carries a note. `disturbances` are done to it while four write, each at least once."""

    def __init__(self, mgr, folder, chance, seconds, text=""):
        """`seconds` are those for which something is away, and `text` is what stands there at first."""
        self.mgr, self.folder, self.chance, self.seconds, self.text = mgr, folder, chance, seconds, text
        self.lines, self.tools = [], ""
        folder.mkdir(parents=True)
        self.open()
        self.disturbances += (self.cut_off, self.cut_for_long, self.silence, self.slow) if self.lines else ()

    lacks = staticmethod(lambda: "")

    def home(self, number):
        """Returns the folder of a writer."""
        return self.folder / str(number)

    def log(self, number):
        """Returns the path of a writer's log."""
        return self.home(number) / "note.ops"

    def others(self):
        """Returns the logs that are of no writer."""
        return []

    def end(self):
        """Looks at what is there at the end."""

    def line(self, port):
        """Returns the port of a line to a port."""
        self.lines.append(Line(port))
        return self.lines[-1].port

    def ssh(self, command):
        """Has writers find a `ssh`, which leads to an sshd of this machine."""
        self.sshd = Sshd(self.folder / "sshd", command)
        self.lines.append(self.sshd.line)
        self.tools = f"{self.sshd.folder}:"

    def away(self):
        """it is away"""
        away = self.path.with_name("away")
        self.path.rename(away)
        time.sleep(self.seconds)
        away.rename(self.path)

    def hinder(self, hindrance, seconds):
        """Does something to all lines, for so long."""
        for line in self.lines:
            hindrance(line)
        time.sleep(seconds)
        for line in self.lines:
            line.mend()

    def cut_off(self):
        """the lines are cut"""
        self.hinder(Line.cut, self.seconds)

    def cut_for_long(self):
        """the lines are cut for a minute"""
        self.hinder(Line.cut, LONG)

    def silence(self):
        """nothing arrives by the lines"""
        self.hinder(Line.silence, self.seconds)

    def slow(self):
        """the lines are slow"""
        self.hinder(lambda line: line.slow(SLOW), 2 * self.seconds)


class SharedHub(Engine):
    """a hub: one writes on its machine, one at its port, two by ssh"""

    def open(self):
        (self.folder / "hub").mkdir()
        if self.text:
            (self.folder / "hub" / "note").write_text(self.text)
        self.hub = Hub(self.mgr, self.folder / "hub", free_port())
        self.port, self.kept = self.line(self.hub.port), self.folder / "kept"
        if Sshd.is_there():
            words = "".join(f"{key}={self.hub.words[key]} " for key in ("MGR", "PATH", "XDG_STATE_HOME"))
            self.ssh(f"{words}{HUB} --join {self.hub.folder / 'note'}")
        self.disturbances = self.kill, self.empty, self.keep, self.restore, self.compact, self.strangers

    def address(self, number):
        by_ssh = "--with hub.example:note" if Sshd.is_there() else f"--with {self.port}"
        return ("", f"--with {self.port}", by_ssh)[min(number, 3) - 1]

    def home(self, number):
        return self.hub.folder if number == 1 else super().home(number)

    def log(self, number):
        copies = self.hub.folder.glob("state/mgr/guests/*/1/note.ops")
        return next(copies, self.folder / "none") if number == 1 else super().log(number)

    def others(self):
        return [self.hub.folder / "note.ops"]

    def end(self):
        self.hub.end()
        if any("Traceback" in line for line in self.hub.lines()):
            fail(f"the hub printed {self.hub.lines()}")

    def kill(self):
        """the hub is killed, and begun again"""
        self.hub.kill()
        time.sleep(self.seconds)
        self.hub.begin()

    def empty(self):
        """the hub is killed, and begun again with nothing"""
        self.hub.kill()
        for path in self.hub.folder.glob("note*"):
            path.unlink()
        self.hub.begin()

    def keep(self):
        """its log is kept for later"""
        shutil.copy(self.hub.folder / "note.ops", self.kept)

    def restore(self):
        """the hub is killed, and begun again with an older log"""
        if self.kept.exists():
            self.hub.kill()
            shutil.copy(self.kept, self.hub.folder / "note.ops")
            self.hub.begin()

    def compact(self):
        """the hub is ended, its log compacted, and begun again"""
        self.hub.end()
        subprocess.run([self.mgr, "compact", "note"], cwd=self.hub.folder, check=True, stdout=subprocess.DEVNULL)
        self.hub.begin()

    def strangers(self):
        """one floods, one drips, one says nothing, and one is far ahead"""
        hello = b'{"op":"hello","version":1,"replica":%d,"name":"eve","token":"%d"}\n'
        links = [socket.create_connection((HOST, self.hub.port)) for _ in range(4)]
        links[0].sendall(b'{"op":')
        links[1].sendall(hello % (77, 1))
        links[2].sendall(hello % (78, 2) + b'{"char":"x","id":[9007199254740991,78],"op":"ins","parent":[0,0]}\n')
        links[3].settimeout(0.2)
        end = time.monotonic() + self.seconds
        try:
            links[3].sendall(hello % (79, 3))
            while time.monotonic() < end:
                links[3].sendall(b'{"id":[1,79],"op":"del"}\n' * 1000)
        except OSError:
            pass  # It is let go, or nothing more is taken of it.
        for link in links:
            link.close()
        if (size := max(map(memory, (self.hub.process.pid, *children(self.hub.process.pid))))) > MOST_MEMORY:
            fail(f"a program of the hub had {size:.0f} MB")


def memory(pid):
    """Returns the greatest size that a program had, in MB."""
    with open(f"/proc/{pid}/status") as file:
        return sum(int(line.split()[1]) for line in file if line.startswith("VmHWM")) / 1024


class SharedFolder(Engine):
    """a folder"""

    def open(self):
        self.path, self.kept = self.folder / "shared", self.folder / "kept"
        self.path.mkdir()
        self.disturbances = self.away, self.empty, self.keep, self.restore, self.cut, self.spoil, self.touch

    def address(self, _):
        return f"--with dir:{self.path}"

    def logs(self):
        return sorted(self.path.iterdir())

    def empty(self):
        """it is emptied"""
        for log in self.logs():
            log.unlink()

    def keep(self):
        """it is kept for later"""
        shutil.rmtree(self.kept, ignore_errors=True)
        shutil.copytree(self.path, self.kept)

    def restore(self):
        """it is put back to an older state"""
        if self.kept.exists():
            self.empty()
            shutil.copytree(self.kept, self.path, dirs_exist_ok=True)

    def cut(self):
        """a log is cut"""
        if logs := self.logs():
            log = self.chance.choice(logs)
            os.truncate(log, self.chance.randint(0, log.stat().st_size))

    def spoil(self):
        """a log has NULs in place of its end"""
        if logs := self.logs():
            log = self.chance.choice(logs)
            size = log.stat().st_size
            os.truncate(log, self.chance.randint(0, size))
            os.truncate(log, size)

    def touch(self):
        """a log is another file with the same bytes"""
        if logs := self.logs():
            log = self.chance.choice(logs)
            shutil.copy(log, self.path / "new")
            os.replace(self.path / "new", log)


# Both ways, the newer file over the older one. A log that is on its way stands there in part.
SYNC = """
while sleep 1; do
    for way in "$1/ $2/" "$2/ $1/"; do rsync -a --update --inplace --whole-file --bwlimit=64 $way; done
done
"""


class SyncedFolder(SharedFolder):
    """a folder on each of two machines, which a sync tool keeps alike: two write by each"""

    def open(self):
        super().open()
        self.other = self.folder / "other"
        self.other.mkdir()
        self.sync()
        self.disturbances = (*(each for each in self.disturbances if each != self.away), self.kill, self.turn_back)

    @staticmethod
    def lacks():
        return "" if shutil.which("rsync") else "rsync is not installed"

    def address(self, number):
        return f"--with dir:{(self.other, self.path)[number % 2]}"

    def sync(self):
        """Begins the sync tool. What vanishes while it looks is no fault."""
        words = ["sh", "-c", SYNC, "sync", self.path, self.other]
        self.tool = start(words, stderr=open(self.folder / "said", "a"))

    def stop(self):
        os.killpg(self.tool.pid, signal.SIGKILL)
        self.tool.wait()

    def kill(self):
        """the sync tool is killed, and begun again"""
        self.stop()
        time.sleep(self.seconds)
        self.sync()

    def turn_back(self):
        """the sync tool puts older logs over newer ones"""
        self.stop()
        subprocess.run(["rsync", "-a", f"{self.path}/", f"{self.other}/"], check=False)
        self.sync()


class SharedBranch(Engine):
    """a branch of git: by its path, by git's own daemon, over http and over ssh"""

    def open(self):
        self.path = self.folder / "shared.git"
        self.git("init", "--quiet", "--bare", "--initial-branch=notes", str(self.path), where=())
        self.git("config", "http.receivepack", "true")
        daemon = ["git", "daemon", "--reuseaddr", "--export-all", "--enable=receive-pack", f"--listen={HOST}"]
        port = free_port()
        start([*daemon, f"--port={port}", f"--base-path={self.folder}", self.folder], stderr=subprocess.DEVNULL)
        server = http.server.ThreadingHTTPServer((HOST, 0), GitOverHttp)
        server.root = self.folder
        threading.Thread(target=server.serve_forever, daemon=True).start()
        ports = {"git": self.line(port), "http": self.line(server.server_port)}
        self.places = [self.path, *(f"{kind}://{HOST}:{ports[kind]}/shared.git" for kind in ports)]
        if Sshd.is_there():
            self.ssh('git shell -c \\"$SSH_ORIGINAL_COMMAND\\"')
            self.places.append(f"ssh://hub.example{self.path}")
        self.disturbances = self.away, self.empty, self.force_back, self.force_else, self.add, self.collect

    @staticmethod
    def lacks():
        return "" if shutil.which("git") else "git is not installed"

    def address(self, number):
        return f"--with git:{self.places[(number - 1) % len(self.places)]}#notes"

    def end(self):
        if merges := self.git("rev-list", "--merges", "notes"):
            fail(f"merge commits: {merges}")

    def git(self, *words, where=None, given=""):
        where = ("-C", str(self.path)) if where is None else where
        author = ("-c", "user.name=Else", "-c", "user.email=else@example.org")
        done = subprocess.run(["git", *where, *author, *words], input=given, capture_output=True, text=True)
        return done.stdout.strip()

    def empty(self):
        """the branch is removed"""
        self.git("update-ref", "-d", "refs/heads/notes")

    def force_back(self):
        """it is forced back"""
        if commits := self.git("rev-list", "notes", "--").split():
            self.git("update-ref", "refs/heads/notes", self.chance.choice(commits))

    def force_else(self):
        """it is forced to a commit without the log"""
        tree = self.git("mktree")
        self.git("update-ref", "refs/heads/notes", self.git("commit-tree", tree, "-m", "else"))

    def add(self):
        """another file is committed"""
        blob = self.git("hash-object", "-w", "--stdin", given="else")
        entries = self.git("ls-tree", "notes")
        tree = self.git("mktree", given=f"{entries}\n100644 blob {blob}\telse{self.chance.random()}\n".lstrip())
        tip = self.git("rev-parse", "notes")
        self.git("update-ref", "refs/heads/notes", self.git("commit-tree", tree, "-p", tip, "-m", "else"), tip)

    def collect(self):
        """its rubbish is removed"""
        self.git("gc", "--quiet", "--prune=now")


class SharedStream(Engine):
    """a stream of Redis: two write directly, two by a line"""

    def open(self):
        self.data, self.port, self.older = self.folder / "redis", free_port(), None
        self.data.mkdir()
        self.begin()
        self.far = self.line(self.port)
        self.disturbances = self.kill, self.lose, self.empty, self.remove, self.keep, self.restore, self.cut, self.trim

    @staticmethod
    def lacks():
        try:
            library()
        except Refused as refused:
            return str(refused)
        return "" if shutil.which("redis-server") else "redis-server is not installed"

    def url(self, port):
        return f"redis://{HOST}:{port}/note"

    def address(self, number):
        return f"--with {self.url(self.port if number < 3 else self.far)}"

    def begin(self):
        words = ("--port", str(self.port), "--bind", HOST, "--dir", str(self.data), "--save", "")
        safe = ("--appendonly", "yes", "--appendfsync", "always")
        self.server = start(["redis-server", *words, *safe], stdout=subprocess.DEVNULL)
        self.client = library().Redis(HOST, self.port)
        await_that("redis-server answers", self._answers)

    def _answers(self):
        try:
            return self.client.ping()
        except library().RedisError:
            return False

    def stop(self):
        self.server.kill()
        self.server.wait()

    def kill(self):
        """the server is killed, and begun again"""
        self.stop()
        time.sleep(self.seconds)
        self.begin()

    def lose(self):
        """the server is killed, and begun again with nothing"""
        self.stop()
        shutil.rmtree(self.data)
        self.data.mkdir()
        self.begin()

    def empty(self):
        """all keys are removed"""
        self.client.flushall()

    def remove(self):
        """the stream is removed"""
        self.client.delete("note")

    def keep(self):
        """it is kept for later"""
        self.older = self.client.dump("note")

    def restore(self):
        """it is put back to an older state"""
        if self.older:
            self.client.restore("note", 0, self.older, replace=True)

    def cut(self):
        """its older entries are removed"""
        self.client.xtrim("note", maxlen=self.chance.randint(0, 5), approximate=False)

    def trim(self):
        """it is trimmed after its content"""
        try:
            trim(self.url(self.port), self.mgr)
        except Exception as fault:
            fail(f"the stream is not trimmed: {fault}")


ENGINES = {"hub": SharedHub, "dir": SharedFolder, "sync": SyncedFolder, "git": SharedBranch, "redis": SharedStream}
