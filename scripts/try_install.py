#!/usr/bin/env python3
"""Installs what `make dist` packed in a fresh root of Debian, has two write live there, and removes it again.

It needs root, a network and debootstrap. The package is tried twice, at first without Python, which it brings; then the
archive. After each the files of the root are those from before, but that Python stays. What a user wrote, and what apt
and dpkg note of themselves, is not looked at.
"""

import os
import pathlib
import shutil
import subprocess
import sys

import plain_ends  # noqa: F401

TOP = pathlib.Path(__file__).resolve().parent.parent
FOLDER = TOP / "build" / "try-install"
ROOT = FOLDER / "root"
RELEASE, MIRROR = "bookworm", "http://deb.debian.org/debian"
# What else changes: notes of apt and dpkg, what ldconfig found, and the home of who writes.
NOT_LOOKED_AT = ("var/lib/apt", "var/lib/dpkg", "var/cache", "var/log", "etc/ld.so.cache", "home", "proc", "dev", "tmp", "root", "run")
# The mounts end with the command, since they are of its own namespace.
INSIDE = 'mount -t proc proc "$0/proc" && mount --bind /dev "$0/dev" && mount --bind /dev/pts "$0/dev/pts" && exec chroot "$0" sh -ec "$1"'
USER = """su somebody -s /bin/sh -c 'cd "$(mktemp -d)" && python3 /tmp/two_writers.py'"""
APT = "DEBIAN_FRONTEND=noninteractive apt-get --yes"
# What apt says is shown if it fails.
QUIETLY = ">/tmp/said 2>&1 || { cat /tmp/said; exit 1; }"


def run(*command, **how):
    """Runs a command, whose words go on; ends the program with its status if it fails."""
    done = subprocess.run(command, **how)
    if done.returncode:
        sys.exit(f"try_install.py: this failed: {' '.join(map(str, command))}")


def inside(line):
    """Runs a line of the shell in the fresh root."""
    print(f"    {line.removesuffix(QUIETLY)}", flush=True)
    words = {"PATH": "/usr/local/sbin:/usr/local/bin:/usr/sbin:/usr/bin:/sbin:/bin", "HOME": "/root", "LC_ALL": "C.UTF-8"}
    run("unshare", "--mount", "sh", "-c", INSIDE, ROOT, line, env=words)


def files():
    """Returns what stands in the root, by path."""
    found = set()
    for folder, names, others in os.walk(ROOT):
        below = os.path.relpath(folder, ROOT)
        names[:] = [name for name in names if os.path.normpath(os.path.join(below, name)) not in NOT_LOOKED_AT]
        found |= {os.path.normpath(os.path.join(below, name)) for name in names + others}
    return {path for path in found if path not in NOT_LOOKED_AT}


def expect_as_before(what, before):
    after = files()
    if after != before:
        print(*sorted(f"left: {path}" for path in after - before), *sorted(f"gone: {path}" for path in before - after), sep="\n")
        sys.exit(f"{what}: the root is not as before")
    print(f"{what}: the root is as before, {len(after)} files and folders")


def fresh_root():
    """Makes the root, and a user in it."""
    if os.geteuid() or shutil.which("debootstrap") is None:
        sys.exit("try_install.py: root and debootstrap are needed")
    shutil.rmtree(FOLDER, ignore_errors=True)
    FOLDER.mkdir(parents=True)
    print(f"a fresh root of Debian {RELEASE}, which takes some minutes", flush=True)
    with (FOLDER / "debootstrap.log").open("w") as log:
        run("debootstrap", "--variant=minbase", RELEASE, ROOT, MIRROR, stdout=log, stderr=log)
    inside("useradd --create-home somebody")


def installed(deb):
    """Installs the package, has two write, and removes it."""
    inside(f"{{ apt-get update && cd /tmp && {APT} install ./{deb.name}; }} {QUIETLY}")
    inside(f"mgr --version; {USER}")
    inside(f"{APT} purge mgr {QUIETLY}")


def one(pattern):
    """Returns the newest of what was packed under such a name."""
    found = sorted((TOP / "build" / "dist").glob(pattern), key=lambda path: path.stat().st_mtime)
    if not found:
        sys.exit("try_install.py: nothing is packed: make dist")
    return found[-1]


def main():
    deb, archive = one("mgr_*_amd64.deb"), one("mgr-*-x86_64-linux.tar.gz")
    fresh_root()
    for file in (deb, archive, TOP / "scripts" / "two_writers.py"):
        shutil.copy(file, ROOT / "tmp")
    print("the package, in the fresh root:")
    fresh = files()
    installed(deb)
    named = sorted(path for path in files() - fresh if "mgr" in path)
    if named:
        sys.exit(f"left by the package: {', '.join(named)}")
    print("once more, now that Python is there:")
    before = files()
    installed(deb)
    expect_as_before("the package is removed", before)
    print("the archive:")
    name = archive.name.removesuffix(".tar.gz")
    inside(f"cd /tmp && tar -xf {archive.name} && {name}/install.sh")
    inside(USER)
    inside(f"/tmp/{name}/install.sh")
    inside(f"/tmp/{name}/uninstall.sh")
    expect_as_before("the archive is removed", before)
    shutil.rmtree(ROOT)


if __name__ == "__main__":
    main()
