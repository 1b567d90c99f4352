#!/bin/bash
# Runs one job with two builds of the auditor, made by two compilers that share no code, and compares their standard output, standard error
# and status. The proof is of the program's text, and a compiler is trusted. If both builds agree, neither compiler erred in the code
# that this job uses. Recommended for a report that goes to court.
#
# Usage: scripts/two_compilers.sh [--builds FOLDER] [--room FOLDER] WORDS.. <GRAPH >REPORT
# WORDS are those of the auditor (run --pop .. or make ..), and GRAPH is its input.
#   --builds FOLDER  the builds are FOLDER/llvm and FOLDER/rattle; missing ones are made and kept there. Without this option both are
#                    made in a temporary folder. Making them proves everything first, unless it is proved already.
#   --room FOLDER    the runs are made in FOLDER/llvm and FOLDER/rattle, which are kept, so that a job with --save and --resume yes can
#                    go on there. Without this option they are made in a temporary folder.
# Both runs are made at the same time, so a job with 4 workers uses 8 threads.
# If both builds agree, their texts are written to standard output and standard error, then the SHA-256 of both builds and of the report
# to standard error, and the status is that of both runs. If not, nothing is written to standard output, standard error names the
# differences, and the status is 100. If no comparison could be made, the status is 101.

here=$(cd "$(dirname "$0")" && pwd) || exit 101
# shellcheck source=usage.sh
. "$here/usage.sh"
# The words of the auditor may end with --help, too.
case ${1:-} in --help | -h) help_where_asked --help ;; esac
crate=$here/../crates/audit_program
compilers=(llvm rattle)

fail() {
    echo "two_compilers: $1" >&2
    exit 101
}

builds='' room=''
while :; do
    case ${1:-} in
        --builds) builds=${2:?} ;;
        --room) room=${2:?} ;;
        *) break ;;
    esac
    shift 2
done
[ $# -gt 0 ] || fail "the words of the auditor are missing; --help says how this is called"
own=$(mktemp -d) || fail "a temporary folder cannot be made; TMPDIR may name another place"
trap 'rm -rf "$own"' EXIT
[ -n "$builds" ] || builds=$own/builds
[ -n "$room" ] || room=$own/room
for name in "${compilers[@]}"; do
    mkdir -p "$builds" "$room/$name" || fail "the folder $room/$name cannot be made"
done
builds=$(cd "$builds" && pwd) || exit 101
room=$(cd "$room" && pwd) || exit 101

# Builds the auditor with the compiler $1, by a small run, and leaves it in the folder of builds.
build() {
    local small=(make --size 1 --slack 5000 --steps 100 --ask cut-edges:low --key "$(printf '%064d' 0)")
    command -v rt >/dev/null || fail "$builds/$1 is missing, and so is the command rt to make it: install the toolchain, or put a build there"
    echo "two_compilers: building with $1" >&2
    (cd "$crate" && RT_BACKEND=$1 rt run -- "${small[@]}" </dev/null) >"$own/built" 2>&1 ||
        fail "the build with $1 failed: $(grep -v '^$' "$own/built" | tail -n 1 | head -c 300)"
    cp "$crate/out/audit_program" "$builds/$1.new" || fail "$builds/$1 cannot be written"
    mv "$builds/$1.new" "$builds/$1" || fail "$builds/$1 cannot be written"
}

for name in "${compilers[@]}"; do
    [ -x "$builds/$name" ] || build "$name"
done
! cmp -s "$builds/llvm" "$builds/rattle" || fail "$builds/llvm and $builds/rattle are one program: two compilers do not write the same bytes"
cat >"$own/graph" || fail "the input cannot be written to $own"

runs=()
for name in "${compilers[@]}"; do
    (cd "$room/$name" && exec "$builds/$name" "$@" <"$own/graph" >"$own/$name.out" 2>"$own/$name.note") &
    runs+=($!)
done
status=()
for run in "${runs[@]}"; do
    wait "$run"
    status+=($?)
done

differs=0
if [ "${status[0]}" -ne "${status[1]}" ]; then
    echo "two_compilers: DIFFER: status ${status[0]} and ${status[1]}" >&2
    differs=1
fi
for part in out note; do
    if ! place=$(cmp "$own/llvm.$part" "$own/rattle.$part" 2>&1); then
        echo "two_compilers: DIFFER: standard ${part/out/output}: ${place##*: }" | sed 's/standard note/standard error/' >&2
        differs=1
    fi
done
if [ $differs -ne 0 ]; then
    head -c 300 "$own/llvm.note" | sed 's/^/two_compilers: llvm: /' >&2
    head -c 300 "$own/rattle.note" | sed 's/^/two_compilers: rattle: /' >&2
    exit 100
fi
cat "$own/llvm.out" || fail "the report cannot be written"
cat "$own/llvm.note" >&2
for name in "${compilers[@]}"; do
    echo "two_compilers: the build with $name: sha256 $(sha256sum <"$builds/$name" | cut -d ' ' -f 1)" >&2
done
echo "two_compilers: the same $(wc -c <"$own/llvm.out") bytes: sha256 $(sha256sum <"$own/llvm.out" | cut -d ' ' -f 1)" >&2
exit "${status[0]}"
