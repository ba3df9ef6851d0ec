#!/bin/sh
# What the compiler must refuse: a slip let go, posted twice or made by hand, a post to a closed tally, and their like.
# Each folder here has a source and the name of the error that it must be refused with. The folder without an error
# has one that must be proved: it shows that the others are refused for what they do.
set -eu
here=$(cd "$(dirname "$0")" && pwd -P)
root=${here%/*}
work=$(mktemp -d)
trap 'rm -rf "$work"' EXIT
trap 'exit 1' HUP INT TERM

# The sources stand in a crate above the dictionary, in a copy, so that the repository stays as it is.
tar -C "$root" --exclude=out -cf - crates crates.txt | tar -C "$work" -xf -
echo 'user: dictionary' >>"$work/crates.txt"
user=$work/crates/user
mkdir -p "$user/src"
cd "$user"

wrong=0
for folder in "$here"/*/; do
    name=$(basename "$folder")
    cp "${folder}lib.rt.txt" src/lib.rt
    status=0
    rt check >"$work/said" 2>&1 || status=$?
    said=$(grep -o 'error\[[a-z0-9-]*\]' "$work/said" | sort -u || true)
    if [ -f "${folder}error" ]; then
        must="refused by error[$(cat "${folder}error")]"
    else
        must=proved
    fi
    case $status in
    0) is=proved ;;
    1) is="refused by $said" ;;
    *) is="not checked (exit $status)" ;;
    esac
    if [ "$is" = "$must" ]; then
        echo "refusals $name: $is, as it must be"
    else
        echo "refusals $name: MUST BE $must, is $is"
        cat "$work/said"
        wrong=1
    fi
done
exit $wrong
