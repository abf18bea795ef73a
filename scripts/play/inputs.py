"""What the jobs of a scene read: all at once, in pieces, or a device that breaks off."""

import fcntl
import os
import socket
import struct
import subprocess
import tempfile
import termios
import time

# A connection that is closed so breaks off, and the other end can read no more.
BREAK = struct.pack("ii", 1, 0)


class Whole:
    """Bytes in a file."""

    def __init__(self, text):
        self.text = text

    def reader(self):
        given = tempfile.TemporaryFile()
        given.write(self.text)
        given.seek(0)
        return given

    def feed(self, process):
        pass


class Pieces:
    """Bytes through a pipe, so many at a time: each is read before the next is written."""

    def __init__(self, text, most):
        self.text, self.most = text, most

    def reader(self):
        return subprocess.PIPE

    def feed(self, process):
        for begin in range(0, len(self.text), self.most):
            if process.poll() is not None:
                return
            try:
                process.stdin.write(self.text[begin : begin + self.most])
            except BrokenPipeError:
                return
            await_reading(process.stdin, process)


class Broken:
    """Bytes, so many at a time or all at once, after which each further read is refused."""

    def __init__(self, text, most=None):
        self.text, self.most = text, most or len(text) or 1

    def reader(self):
        with socket.create_server(("127.0.0.1", 0)) as server:
            self.near = socket.create_connection(server.getsockname())
            self.far, _ = server.accept()
        return self.far

    def feed(self, process):
        for begin in range(0, len(self.text), self.most):
            self.near.sendall(self.text[begin : begin + self.most])
            await_reading(self.far, process)
        self.near.setsockopt(socket.SOL_SOCKET, socket.SO_LINGER, BREAK)
        self.near.close()
        self.far.close()


def await_reading(pipe, process):
    """Waits until all that was written is read, or nobody reads any more."""
    while unread(pipe) and process.poll() is None:
        time.sleep(0.0002)


def unread(pipe):
    return struct.unpack("i", fcntl.ioctl(pipe, termios.FIONREAD, b"\0" * 4))[0]
