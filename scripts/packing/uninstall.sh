#!/bin/sh
# Removes what install.sh put below a prefix: ./uninstall.sh [PREFIX], /usr/local if none is named. Notes stay, and so do the
# numbers of their copies, in ~/.local/state/mgr.
set -eu
prefix=${1:-/usr/local}
list=$prefix/share/mgr/installed
if [ ! -f "$list" ]; then
    echo "uninstall.sh: below $prefix is no mgr that install.sh put there" >&2
    exit 1
fi
# Python keeps what it compiled beside the modules.
find "$prefix/share/mgr" -name __pycache__ -prune -exec rm -rf {} +
sort -r "$list" | while read -r path; do
    if [ -L "$prefix/$path" ] || [ ! -d "$prefix/$path" ]; then
        rm -f "$prefix/$path"
    else
        rmdir "$prefix/$path" 2>/dev/null || true
    fi
done
