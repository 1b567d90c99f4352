#!/bin/bash
# Makes a release: programs that run on any Linux of x86-64 without the toolchain, and a wheel that installs them with the Python package.
#
# Usage: scripts/release.sh FOLDER [--sign KEY]
# FOLDER is empty, or has an earlier release, which is replaced. The release that stands in the repository is the folder `release`.
#   --sign KEY   signs SHA256SUMS with this secret key of minisign
# The checkout has no changes, and `bash .ci/run` has passed on its commit, but for the test `release`. Commits since then may have changed
# documents only.
# The crates of the programs are proved once more, with commit and kit in their answer to --version, over the libraries of the gate. Both
# compilers make an object, and gcc links it statically. Each program of both compilers must give all cases of `case_output` their output.
# One commit with one kit, C library and linker gives the same bytes in any folder. It takes some minutes.
# On failure, one line on standard error says why, and the status is 1.

here=$(cd "$(dirname "$0")" && pwd) || exit 1
# shellcheck source=usage.sh
. "$here/usage.sh"
help_where_asked "$@"
[ $# -ge 1 ] || { echo "release: the folder is missing; usage: scripts/release.sh FOLDER [--sign KEY]" >&2; exit 1; }
case $1 in
    /*) out=$1 ;;
    *) out=$PWD/$1 ;;
esac
cd "$here/.." || exit 1
PYTHONPATH=. exec python3 -m tools.release make "$out" "${@:2}"
