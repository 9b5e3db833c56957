#!/usr/bin/env bash
# Tries the edits of benches/edits/ on a copy of the repository: the check must refuse each.
# usage: benches/edits.sh [CRATE..]; without words it tries those of every crate.
# Prints a line for each edit and one for each crate. Status 1 where an edit was not refused.
set -u
top=$(cd "$(dirname "$0")/.." && pwd) || exit 2
cd "$top/benches/edits" || exit 2
[ $# -gt 0 ] || set -- *
for crate; do
    [ -d "$crate" ] || { echo "no edits of $crate in benches/edits" >&2; exit 2; }
done
copy=$(mktemp -d) || exit 2
trap 'rm -rf "$copy"' EXIT
cd "$top" || exit 2
tar -c --exclude='crates/*/out' --exclude=must-fail crates crates.txt HANDLES | tar -x -C "$copy" || exit 2
status=0
for crate; do
    mkdir "$copy/crates/$crate/must-fail" && cp benches/edits/"$crate"/*.edit "$copy/crates/$crate/must-fail" || exit 2
    (cd "$copy" && rt must-fail "$crate") >"$copy/said" 2>&1
    answer=$?
    grep '^rt: must-fail' "$copy/said" | cut -c1-200
    if [ $answer -eq 0 ]; then
        echo "== $crate: each refused"
    else
        tail -n 5 "$copy/said"
        echo "== $crate: NOT EACH REFUSED"
        status=1
    fi
done
exit $status
