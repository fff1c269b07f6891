#!/usr/bin/env bash
# Makes the library for the fuzzer: the same module that `rt lib` compiles in crates/rdp6, with the address sanitiser and counters of edges
# in it. `rt` does it, in a copy of this repository's crates with what is proved of them, from a kit whose clang is the one beside this
# script. It stops if the kit has not the form that is known here.
#
#   instrument.sh FOLDER   makes FOLDER/librdp6.a
#   instrument.sh --help   prints this
set -euo pipefail

here=$(cd "$(dirname "${BASH_SOURCE[0]}")" && pwd)
. "$here/../../arguments.sh"
script=differential/rust/fuzz/instrument.sh

wants_help "$@" && usage
[ $# -gt 0 ] || refuse "no FOLDER"
case $1 in -*) unexpected "$1" ;; esac
at_most 1 "$@"
top=$(cd "$here/../../.." && pwd)
folder=$(realpath -m "$1")
kit=$(dirname "$(dirname "$(readlink -f "$(command -v rt)")")")
for part in bin/rt bin/rtlib.py toolchain/bin/clang; do
    [ -f "$kit/$part" ] || {
        echo "the Rattle kit at $kit has no $part: the library cannot be instrumented" >&2
        exit 1
    }
done

# Nothing of this stays, since 'rt ci' refuses a second repository, and links, in this one.
made=("$folder/kit" "$folder/repository" "$folder/rattle-kept")
trap 'rm -rf "${made[@]}"' EXIT
rm -rf "${made[@]}"

# A kit of links to the true one, but for its clang. rt finds the kit by its own true path, so its two files are copied.
mkdir -p "$folder/kit/bin" "$folder/kit/toolchain/bin" "$folder/kit/toolchain/true"
link_all() { # FOLDER, seen from the kit, EXCEPT..
    local part
    for part in "$kit/$1"/*; do
        case " ${*:2} " in
        *" ${part##*/} "*) ;;
        *) ln -s "$part" "$folder/kit/$1/${part##*/}" ;;
        esac
    done
}
link_all . bin toolchain
link_all bin rt rtlib.py
link_all toolchain bin
link_all toolchain/bin clang
cp "$kit/bin/rt" "$kit/bin/rtlib.py" "$folder/kit/bin/"
cp "$here/clang" "$folder/kit/toolchain/bin/"
ln -s "$kit/toolchain/bin/clang" "$folder/kit/toolchain/true/clang"

# The crates, with what is proved of them: their libraries, and of rdp6 the work of its check.
mkdir -p "$folder/repository/crates"
cp "$top/crates.txt" "$folder/repository/"
for crate in "$top"/crates/*/; do
    copy=$folder/repository/crates/$(basename "$crate")
    mkdir -p "$copy/out"
    for part in src specs proofs out/rlib; do
        if [ -d "$crate$part" ]; then cp -r "$crate$part" "$copy/$part"; fi
    done
done
kept=crates/rdp6/out/incremental
if [ -d "$top/$kept" ]; then cp -r "$top/$kept" "$folder/repository/$kept"; fi
(cd "$folder/repository/crates/rdp6" && "$folder/kit/bin/rt" lib) >"$folder/instrument.log" 2>&1 || {
    tail -n 20 "$folder/instrument.log" >&2
    exit 1
}
mv "$folder/repository/crates/rdp6/out/librdp6.a" "$folder/librdp6.a"
