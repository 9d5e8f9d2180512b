#!/bin/sh
# Checks each misuse/*.rt.txt as a crate over `depot`: its first line says which error refuses it, or that it is accepted.
root=$(cd "$(dirname "$0")/.." && pwd)
work=$(mktemp -d)
trap 'rm -rf "$work"' EXIT
mkdir "$work/crates"
below='account store numbers items depot'
for crate in $below; do cp -R "$root/crates/$crate" "$work/crates/$crate"; done
{ grep -E "^($(echo $below | tr ' ' '|')):" "$root/crates.txt"; echo 'misuse: account store depot'; } >"$work/crates.txt"
failed=0
for text in "$root"/misuse/*.rt.txt; do
    crate="$work/crates/misuse"
    rm -rf "$crate" && mkdir -p "$crate/src" && cp "$text" "$crate/src/lib.rt"
    (cd "$crate" && rt check) >"$work/log" 2>&1
    status=$?
    want=$(sed -n '1s,^// ,,p' "$text")
    case $want in
    accepted) [ $status -eq 0 ] && said=yes || said=no ;;
    refused:*) [ $status -eq 1 ] && grep -q "^src/lib.rt.*error\[[a-z0-9-]*${want#refused: }" "$work/log" && said=yes || said=no ;;
    *) said=no ;;
    esac
    [ $said = yes ] || { failed=1; tail -n 3 "$work/log"; }
    echo "misuse ${text##*/}: $want: $said"
done
exit $failed
