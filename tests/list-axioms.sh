#!/usr/bin/env bash
# Writes tests/axioms: the functions of C whose contracts the verdicts on the two programs rest on, each with the programs
# that reach it, by `rattle check --list-axioms`. Needs what `make KEEP=1` proved, and takes some minutes. After this
# tests/make-believed.py puts them into docs/BELIEVED.md. `make` says if a program reaches another number of them.
set -uo pipefail
cd "$(dirname "$0")/.." || exit 1

list_axioms() {
    (cd "crates/$1" && rt check --jobs 1 --list-axioms) | sed -nE "s/^ +([A-Za-z_0-9:]+) +reached$/\1 $1/p"
}

found=$(for program in rpcbind rpcinfo; do list_axioms "$program" || exit 1; done) || exit 1
[ -n "$found" ] || { echo "rt names no function of C: is all proved?" >&2; exit 1; }
awk '{ by[$1] = by[$1] " " $2 } END { for (name in by) print name by[name] }' <<< "$found" | LC_ALL=C sort > tests/axioms
