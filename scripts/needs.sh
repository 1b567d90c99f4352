#!/bin/bash
# Looks for what the tests need beside the toolchain. For what is missing, prints the one line to type, or installs it from Debian.
#
# Usage: scripts/needs.sh               looks, and installs nothing
#        scripts/needs.sh install       looks, and installs what is missing where root and apt-get are there; a line says what
#        scripts/needs.sh python M..    prints the first python that has all of these modules, or ends with 1; here alone it is chosen
# The last line counts: what is there as passed, and what is missing as failed where the variable CI is set, and as skipped elsewhere.
# Ends with 1 where something failed.
# R is optional, and not looked for: without r-base-core, r-cran-jsonlite, r-cran-testthat and r-cran-digest the test r_package is skipped.
# With r-cran-sf, r-cran-spdep, r-cran-ggplot2 and r-cran-knitr, it tests more.

# One python is to have all of these modules, and these programs are to be there; for each the Debian packages.
modules=(networkx matplotlib pandas tqdm shapely venv ensurepip)
declare -A package=([networkx]=python3-networkx [matplotlib]=python3-matplotlib [pandas]=python3-pandas [tqdm]=python3-tqdm [shapely]=python3-shapely
    [venv]=python3-venv [ensurepip]=python3-venv [strace]=strace [gcc]="gcc libc6-dev"
    [git]=git [parallel]=parallel [flake8]=flake8 [mypy]=mypy [valgrind]=valgrind)
programs=(git strace gcc parallel flake8 mypy valgrind)

# Succeeds if a python is of 3.9 or later and has all of some modules.
has() {
    local python=$1 module
    shift
    command -v "$python" >/dev/null || return 1
    for module in "$@"; do
        "$python" -c "import $module" 2>/dev/null || return 1
    done
    "$python" -c 'import sys; sys.exit(sys.version_info < (3, 9))' 2>/dev/null
}

python_with() {
    local python
    for python in python3 /usr/bin/python3; do
        if has "$python" "$@"; then
            echo "$python"
            return 0
        fi
    done
    return 1
}

# Sets `missing` to the names of what is missing, and `packages` to the Debian packages that have it.
look() {
    local name
    missing=() packages=()
    if ! python_with "${modules[@]}" >/dev/null; then
        for name in "${modules[@]}"; do
            has /usr/bin/python3 "$name" || { missing+=("$name"); packages+=("${package[$name]}"); }
        done
    fi
    for name in "${programs[@]}"; do
        command -v "$name" >/dev/null || { missing+=("$name"); packages+=(${package[$name]}); }
    done
    mapfile -t packages < <(printf '%s\n' "${packages[@]}" | sed '/^$/d' | sort -u)
}

# apt-get, that asks nothing and does not wait for ever.
apt() {
    DEBIAN_FRONTEND=noninteractive timeout 900 apt-get -y -o Acquire::http::Timeout=20 -o Acquire::https::Timeout=20 -o Acquire::Retries=1 \
        -o DPkg::Lock::Timeout=120 "$@" </dev/null >>"$log" 2>&1
}

install() {
    [ "$(id -u)" = 0 ] && command -v apt-get >/dev/null || return
    echo "needs: installing ${packages[*]}"
    log=$(mktemp) || return
    apt install --no-install-recommends "${packages[@]}" || { apt update; apt install --no-install-recommends "${packages[@]}"; } ||
        echo "needs: the installation failed: $(tail -n 1 "$log" | head -c 300)" >&2
    rm -f "$log"
}

case ${1:-} in
    --help | -h)
        sed -n '2,/^[^#]/{/^#/s/^# \{0,1\}//p}' "$0"
        exit 0
        ;;
    python)
        shift
        python_with "$@"
        exit
        ;;
    install | '') ;;
    *)
        echo "needs: the word $1 is unknown; usage: scripts/needs.sh [install | python MODULE..]" >&2
        exit 2
        ;;
esac
look
if [ ${#missing[@]} -gt 0 ] && [ "${1:-}" = install ]; then
    install
    look
fi
failed=0 skipped=0
if [ ${#missing[@]} -gt 0 ]; then
    echo "needs: missing: ${missing[*]}; as root: apt-get install -y ${packages[*]}" >&2
    if [ -n "${CI:-}" ]; then failed=${#missing[@]}; else skipped=${#missing[@]}; fi
fi
echo "needs.sh: $((${#modules[@]} + ${#programs[@]} - ${#missing[@]})) passed, $failed failed, $skipped skipped"
[ "$failed" -eq 0 ]
