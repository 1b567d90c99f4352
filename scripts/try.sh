#!/bin/bash
# The two commands for everybody who has this repository, with the toolchain or without: `make audit` and `make test` call this script.
#
# Usage: scripts/try.sh audit [FOLDER]
#        scripts/try.sh test
#   audit   installs package and programs of the folder `release` in an environment in the user's cache, and audits the map of North Carolina. It prints the
#           report, and leaves report, exhibit and picture in FOLDER, or in out/audit.
#   test    installs what the tests need, and runs all tests that can run here. With the toolchain it runs the gate, which has them all.
# As root on Debian or Ubuntu both install missing packages, and say which. Elsewhere they print the line to type.
# On failure, one line on standard error says what is wrong and what to do, and the status is 1.

here=$(cd "$(dirname "$0")" && pwd) || exit 1
# shellcheck source=usage.sh
. "$here/usage.sh"
help_where_asked "$@"
top=$(cd "$here/.." && pwd) || exit 1

fail() {
    echo "try: $1" >&2
    exit 1
}

# Installs Debian packages as root, after a line that names them. The words are a reason, then the packages.
need_packages() {
    local why=$1
    shift
    if [ "$(id -u)" != 0 ] || ! command -v apt-get >/dev/null; then
        fail "$why: as root, apt-get install -y $*"
    fi
    echo "try: installing $*"
    export DEBIAN_FRONTEND=noninteractive
    { apt-get install -y --no-install-recommends "$@" || { apt-get update && apt-get install -y --no-install-recommends "$@"; }; } \
        </dev/null >"$log" 2>&1 || fail "$why, and the installation failed: $(tail -n 1 "$log" | head -c 200)"
}

# Fails unless the release is whole, and made for this machine.
check_release() {
    local wrong
    [ -d "$top/release" ] || fail "there is no folder release: scripts/release.sh release makes it with the toolchain"
    wrong=$(cd "$top/release" && sha256sum --check --strict --quiet SHA256SUMS 2>&1) ||
        fail "release/ is not as it was made ($(head -n 1 <<<"$wrong")): load the repository again"
    [ "$(uname -s) $(uname -m)" = "Linux x86_64" ] ||
        fail "the programs in release/ are for Linux on x86_64, and this is $(uname -s) on $(uname -m): build them with the toolchain, as docs/user/GUIDE.md says"
    # Another wheel in the folder may be that of an earlier release.
    wheel=$(cut -c 67- "$top/release/SHA256SUMS" | grep -x 'district_audit-.*\.whl')
    [ -f "$top/release/$wheel" ] || fail "release/SHA256SUMS names no wheel: load the repository again"
}

# Prints the python to use: the first with matplotlib and what an environment needs, or else the first of that name. An installed
# matplotlib belongs to Debian's python, which need not be the first.
choose_python() {
    local base
    for base in python3 /usr/bin/python3; do
        if "$base" -c 'import sys, venv, ensurepip, matplotlib; sys.exit(sys.version_info < (3, 9))' 2>/dev/null; then
            echo "$base"
            return
        fi
    done
    echo python3
}

# The virtual environment. An environment has links, and `rt ci` refuses links in a checkout.
venv=${XDG_CACHE_HOME:-${HOME:-/tmp}/.cache}/district-audit/venv

# The environment's Python, without the variables that could name another package or program.
python=(env -u DISTRICT_AUDIT -u DISTRICT_AUDIT_SLOTS "$venv/bin/python" -E)

# Returns whether the environment has the package and the programs of its wheel.
has_programs() {
    "${python[@]}" -I -c 'from district_audit import program
for which in program.KNOWN: program.find_program(which)
assert program.find_beside_package("audit_gather")' >/dev/null 2>&1
}

# Makes the virtual environment with the wheel of the release, if it is not there or was damaged.
make_environment() {
    local sums
    sums=$(sha256sum <"$top/release/$wheel")
    if [ "$(cat "$venv/wheel.sha256" 2>/dev/null)" = "$sums" ]; then
        has_programs && return
        echo "try: the environment $venv is damaged: making it anew"
    fi
    python3 -c 'import sys, venv, ensurepip; sys.exit(sys.version_info < (3, 9))' 2>/dev/null ||
        need_packages "Python 3.9 or later with venv is missing" python3 python3-venv
    rm -rf "$venv"
    mkdir -p "${venv%/*}" || fail "${venv%/*} cannot be made"
    "$(choose_python)" -m venv --system-site-packages "$venv" >"$log" 2>&1 || fail "the environment $venv cannot be made: $(tail -n 1 "$log")"
    "${python[@]}" -m pip install --no-index --no-deps --force-reinstall --disable-pip-version-check "$top/release/$wheel" >"$log" 2>&1 ||
        fail "pip does not install release/$wheel: $(grep -v '^$' "$log" | tail -n 1 | head -c 300)"
    has_programs || fail "the package that pip installed in $venv does not find its programs: remove this folder and try again"
    echo "$sums" >"$venv/wheel.sha256"
}

audit() {
    check_release
    make_environment
    echo "try: auditing examples/data/nc.json"
    rm -f "$log"
    exec "${python[@]}" "$top/examples/audit_nc.py" "${1:-$top/out/audit}"
}

tests() {
    "$here/needs.sh" install
    cd "$top" || exit 1
    if command -v rt >/dev/null; then exec bash .ci/run; fi
    echo "try: the toolchain is not here: what needs it is skipped, by name"
    # A forge sets CI, with which a missing package is a failure. What is missing was to be installed above.
    exec tests/run full
}

log=$(mktemp) || exit 1
trap 'rm -f "$log"' EXIT
case ${1:-} in
    audit) audit "${@:2}" ;;
    test) tests ;;
    *) fail "give audit or test; --help says more" ;;
esac
