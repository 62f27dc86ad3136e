#!/bin/bash
# Wrong pairs: each patch of this folder changes a definition and its function together, so that the crates that hold them are
# still proved; its first line names the crate of laws that must refuse it. Each is applied to a copy of the repository, the
# crates below that crate are proved there, and then that crate is checked.
# Usage, at the top of the repository: docs/pairs/check.sh [NAME..]. It is no part of the gate, since each pair proves the
# crates that it changes, and those between, once again.
set -u
here=$(cd "$(dirname "$0")" && pwd)
top=$(cd "$here/../.." && pwd)
work=$(mktemp -d)
trap 'rm -rf "$work"' EXIT
if [ $# -eq 0 ]; then set -- $(cd "$here" && ls *.patch | sed 's/\.patch$//'); fi
bad=0
for name in "$@"; do
    patch="$here/$name.patch"
    crate=$(head -1 "$patch")
    copy="$work/$name"
    mkdir -p "$copy"
    cp -r "$top/crates" "$top/crates.txt" "$copy/"
    [ -e "$top/HANDLES" ] && cp "$top/HANDLES" "$copy/"
    if ! (cd "$copy" && tail -n +3 "$patch" | patch -s -p1); then
        echo "$name: the patch does not apply"
        bad=1
        continue
    fi
    # The crates that the patch changes have to be proved, and those between them and the laws.
    (cd "$copy/crates/$crate" && rt check > "$work/$name.log" 2>&1)
    status=$?
    if [ $status -eq 0 ]; then
        echo "$name: NOT REFUSED by $crate"
        bad=1
    elif grep -q "did not build, so nothing above it was checked" "$work/$name.log"; then
        echo "$name: a crate below $crate is not proved, so the pair shows nothing"
        bad=1
    elif grep -q "^fn $crate::.*: not proved\|^fn $crate::.*: no proof\|proofs/.*error" "$work/$name.log"; then
        echo "$name: refused by $crate"
    else
        echo "$name: no verdict (status $status)"
        tail -3 "$work/$name.log"
        bad=1
    fi
done
exit $bad
