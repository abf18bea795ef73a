#!/bin/sh
# Copies mgr below a prefix: ./install.sh [PREFIX], /usr/local if none is named. What it puts there, and each folder that it
# makes, stands in PREFIX/share/mgr/installed, by which uninstall.sh removes it again.
set -eu
prefix=${1:-/usr/local}
mkdir -p "$prefix" 2>/dev/null || true
if [ ! -w "$prefix" ]; then
    echo "install.sh: $prefix can't be written: name another prefix, as ./install.sh ~/.local, or be root" >&2
    exit 1
fi
prefix=$(cd "$prefix" && pwd)
cd "$(dirname "$0")/files"
list=$prefix/share/mgr/installed
if [ -f "$list" ]; then
    ../uninstall.sh "$prefix"
fi

made=$(find . -mindepth 1 -type d | sort | while read -r folder; do
    if [ ! -d "$prefix/$folder" ]; then
        mkdir "$prefix/$folder"
        echo "$folder"
    fi
done)
find . ! -type d | while read -r file; do
    rm -f "$prefix/$file"
    cp -P "$file" "$prefix/$file"
done
# The front finds its modules, and the manuals name their documents, by the prefix.
for file in bin/mgr-*; do
    sed "s|^INSTALLED = .*|INSTALLED = \"$prefix/share/mgr\"|" "$file" >"$prefix/$file"
done
for file in share/man/man1/mgr.1 share/man/man1/mgr-live.1; do
    sed "s|^\.Pa /share/|.Pa $prefix/share/|" "$file" >"$prefix/$file"
done
{
    find . ! -type d
    if [ -n "$made" ]; then echo "$made"; fi
    echo ./share/mgr/installed
} | sort >"$list"

echo "mgr is below $prefix; uninstall.sh removes it. Now: mgr-live notes"
case :$PATH: in
    *":$prefix/bin:"*) ;;
    *) echo "$prefix/bin is not on PATH: put it there first" ;;
esac
if ! python3 -c 'import sys; sys.exit(sys.version_info < (3, 10))' 2>/dev/null; then
    echo "mgr-live, mgr-hub and mgr-channel need Python 3.10 or a later one, as python3 on PATH"
fi
