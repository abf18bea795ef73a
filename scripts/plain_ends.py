"""A script that imports this ends with a line, and no traceback, if a file or a program is not there or fails."""

import os
import shutil
import subprocess
import sys


def line_of(kind, fault):
    """Returns what is said of a fault, or nothing if it is one of the script itself."""
    if issubclass(kind, KeyboardInterrupt):
        return "stopped"
    if issubclass(kind, subprocess.CalledProcessError):
        command = fault.cmd if isinstance(fault.cmd, str) else fault.cmd[0]
        said = fault.stderr or b""
        text = said.decode(errors="replace") if isinstance(said, bytes) else said
        return f"{command} ended with status {fault.returncode}. {text.strip()}".strip()
    if issubclass(kind, OSError):
        return f"{fault.filename}: {fault.strerror}" if fault.filename else str(fault)
    return None


def end(kind, fault, trace):
    line = line_of(kind, fault)
    if line is None:
        sys.__excepthook__(kind, fault, trace)
    else:
        print(f"{sys.argv[0].rsplit('/', 1)[-1]}: {line}", file=sys.stderr)


sys.excepthook = end


def named_mgr():
    """Returns the path of the mgr that the command line names first; ends the script if there is none."""
    script = sys.argv[0].rsplit("/", 1)[-1]
    if len(sys.argv) < 2:
        sys.exit(f"usage: {script} MGR ..; {script} itself says what may follow")
    if shutil.which(sys.argv[1]) is None:
        sys.exit(f"{script}: {sys.argv[1]} is no program")
    return os.path.abspath(sys.argv[1])
