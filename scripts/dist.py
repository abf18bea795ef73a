#!/usr/bin/env python3
"""Packs mgr for machines without the prover, at build/dist: an archive with an install.sh, and a package of Debian.

usage: dist.py MGR, a built mgr. `install.py` says what goes where; `packing/` has what an archive or a package needs
beside that. It needs rt, whose kit proved mgr, dpkg-deb and dpkg-shlibdeps; what lintian says of the package is shown
if it is installed, and an error or a warning fails.
"""

import email.utils
import gzip
import hashlib
import os
import pathlib
import shutil
import subprocess
import sys
import tarfile
import tempfile

import build
import install
import plain_ends  # noqa: F401

HERE = pathlib.Path(__file__).resolve().parent
PACKING = HERE / "packing"
DIST = build.BUILD / "dist"
AUTHOR = "Cuffshale maintainers <maintainers@users.noreply.cuffshale.example>"

# Below the prefix; zsh looks for what packages bring in a folder of its own.
FOLDERS = {
    "BINDIR": "bin", "MANDIR": "share/man", "DATADIR": "share/mgr", "DOCDIR": "share/doc/mgr",
    "COMPDIR": "share/bash-completion/completions", "ZSHDIR": "share/zsh/site-functions",
    "FISHDIR": "share/fish/vendor_completions.d", "LISPDIR": "share/emacs/site-lisp",
}  # fmt: skip
DEBIAN_FOLDERS = {**FOLDERS, "ZSHDIR": "share/zsh/vendor-completions"}


def said(*command, folder=build.TOP):
    """Returns what a program writes; ends this one with its fault."""
    done = subprocess.run(command, cwd=folder, capture_output=True, text=True)
    if done.returncode:
        sys.exit(f"dist.py: {' '.join(map(str, command))}: {done.stderr.strip() or done.stdout.strip()}")
    return done.stdout.strip()


def version():
    sys.path.insert(0, str(build.TOP / "front"))
    from mgr_front import VERSION

    return VERSION


def proved_sources():
    """Returns the files of the crates that mgr is proved from, as paths below the top."""
    crates = build.lines_below(build.PROGRAM)
    parts = ("src", "specs", "proofs")
    found = [path for crate in crates for part in parts for path in (build.TOP / "crates" / crate / part).rglob("*")]
    return sorted(path.relative_to(build.TOP) for path in found if path.is_file())


def checksums(mgr):
    """Returns which kit proved mgr, and the checksums of what it read and of what it built, as sha256sum -c reads them."""
    sums = {path: hashlib.sha256((build.TOP / path).read_bytes()).hexdigest() for path in proved_sources()}
    sums["build/mgr"] = hashlib.sha256(mgr.read_bytes()).hexdigest()
    head = f"# mgr {version()}, proved and built by {said('rt', 'version')}\n# In its sources: sha256sum -c proved.sha256\n"
    return head + "".join(f"{value}  {path}\n" for path, value in sums.items())


def stage(root, prefix, folders, mgr):
    """Puts all that is installed below a root, with the checksums among the documents."""
    words = [f"{name}={prefix}/{path}" for name, path in folders.items()]
    place = install.Place([f"DESTDIR={root}", *words])
    install.put(place, mgr)
    for name, text in {"proved.sha256": checksums(mgr), "CHANGELOG.md": (build.TOP / "CHANGELOG.md").read_text()}.items():
        place("DOCDIR", name).write_text(text)
        place("DOCDIR", name).chmod(0o644)
    return place


def dated(root, when):
    """Gives every file one date, so that the same sources make the same bytes."""
    for path in [root, *root.rglob("*")]:
        os.utime(path, (when, when), follow_symlinks=False)


def archive(folder, mgr, when):
    """Makes the archive, and returns its path."""
    name = f"mgr-{version()}-x86_64-linux"
    root = folder / name
    stage(root / "files", "", FOLDERS, mgr)
    for script in ("install.sh", "uninstall.sh"):
        shutil.copy(PACKING / script, root)
    shutil.copy(build.TOP / "LICENSE", root)
    dated(root, when)
    made = DIST / f"{name}.tar.gz"
    with made.open("wb") as raw, gzip.GzipFile("", "wb", 9, raw, when) as packed, tarfile.open(None, "w", packed) as tar:
        for path in [root, *sorted(root.rglob("*"))]:
            tar.add(path, path.relative_to(folder), recursive=False, filter=of_root)
    return made


def of_root(member):
    member.uid = member.gid = 0
    member.uname = member.gname = "root"
    return member


def compress(path, when):
    """Puts a compressed file in the place of one, as Debian wants of manuals and changelogs."""
    path.with_name(path.name + ".gz").write_bytes(gzip.compress(path.read_bytes(), 9, mtime=when))
    path.unlink()


def debian_documents(place, when):
    """Compresses the manuals, and adds what each package of Debian has among its documents."""
    for manual in sorted(place("MANDIR", "man1").iterdir()):
        if manual.is_symlink():
            manual.with_name(manual.name + ".gz").symlink_to(f"{os.readlink(manual)}.gz")
            manual.unlink()
        else:
            compress(manual, when)
    entry = f"mgr ({version()}) unstable; urgency=medium\n\n  * CHANGELOG.md has the changes.\n\n"
    changelog = place("DOCDIR", "changelog")
    changelog.write_text(f"{entry} -- {AUTHOR}  {email.utils.formatdate(when)}\n")
    changelog.chmod(0o644)
    compress(changelog, when)
    place("DOCDIR", "copyright").write_text((build.TOP / "LICENSE").read_text())
    place("DOCDIR", "copyright").chmod(0o644)


def libraries(folder, program):
    """Returns which packages have the libraries that the program uses, as dpkg-shlibdeps says."""
    (folder / "debian").mkdir()
    (folder / "debian/control").write_text("Source: mgr\n\nPackage: mgr\nArchitecture: any\n")
    return said("dpkg-shlibdeps", "-O", str(program), folder=folder).removeprefix("shlibs:Depends=")


def package(folder, mgr, when):
    """Makes the package of Debian, and returns its path."""
    root = folder / "debian-root"
    place = stage(root, "/usr", DEBIAN_FOLDERS, mgr)
    said("strip", "--strip-unneeded", "--remove-section=.comment", "--remove-section=.note", place("BINDIR", "mgr"))
    debian_documents(place, when)
    files = sorted(path for path in root.rglob("*") if path.is_file() and not path.is_symlink())
    size = sum(-(-path.stat().st_size // 1024) for path in root.rglob("*"))
    control = root / "DEBIAN"
    control.mkdir()
    sums = [f"{hashlib.md5(path.read_bytes()).hexdigest()}  {path.relative_to(root)}\n" for path in files]
    (control / "md5sums").write_text("".join(sums))
    known = {"version": version(), "size": size, "libraries": libraries(folder, place("BINDIR", "mgr"))}
    (control / "control").write_text((PACKING / "control").read_text().format_map(known))
    for script in ("postinst", "prerm"):
        shutil.copy(PACKING / script, control)
    dated(root, when)
    made = DIST / f"mgr_{version()}_amd64.deb"
    said("dpkg-deb", "--root-owner-group", "-Zxz", "--build", root, made)
    return made


def look_at(made):
    """Shows what lintian says of a package; an error or a warning ends the program."""
    if shutil.which("lintian") is None:
        print("lintian is not installed: nothing looked at the package")
        return
    done = subprocess.run(["lintian", "--fail-on", "error,warning", "--allow-root", made])
    if done.returncode:
        sys.exit("lintian finds an error or a warning in the package")
    print("lintian finds no error and no warning in the package")


def main():
    if len(sys.argv) != 2:
        sys.exit("usage: dist.py MGR")
    for program in ("rt", "dpkg-deb", "dpkg-shlibdeps", "strip"):
        if shutil.which(program) is None:
            sys.exit(f"dist.py: {program} is not installed")
    mgr = pathlib.Path(sys.argv[1])
    when = int(os.environ.get("SOURCE_DATE_EPOCH") or mgr.stat().st_mtime)
    os.environ["SOURCE_DATE_EPOCH"] = str(when)
    os.umask(0o022)
    DIST.mkdir(parents=True, exist_ok=True)
    with tempfile.TemporaryDirectory(prefix="mgr-dist-") as folder:
        for make in (archive, package):
            print(made := make(pathlib.Path(folder), mgr, when))
    look_at(made)


if __name__ == "__main__":
    main()
