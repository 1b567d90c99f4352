#!/bin/bash
# Tries the release and the two commands on bare systems: for each suite a chroot made by debootstrap, with nothing else in it and no toolchain.
#
# Usage, as root and with a mirror: tests/chroots.sh FOLDER [SUITE ..]
# The systems stand in FOLDER, and are made once; the suites are bullseye, bookworm, trixie and noble where none is named. Without the
# package ubuntu-keyring, Ubuntu's signatures are not checked. In each system this checkout's commit is tried:
#   audit_fresh    make audit as root on the fresh system, which installs what it needs, in less than a minute
#   audit_*        make audit without a network, as root and as a user, in less than a minute: the report must be that of the first
#   wheel_*        the wheel in an empty environment without a network: README's example in Python, and the commands of GUIDE
#   tests_*        make test as root, which installs what it needs, and as a user without a network: it must end with 0 and skip by name
# Each prints a line with its seconds, and leaves its output in FOLDER/SUITE.NAME. The last line counts. This is no part of the test
# command, since it takes a mirror and half an hour for each suite. TRY, such as `audit wheel`, limits it to these kinds.

source "$(dirname "$0")/checks.sh"
# shellcheck disable=SC2034,SC2016,SC2154
test_name=chroots
[ "$(id -u)" = 0 ] && command -v debootstrap >/dev/null || give_up debootstrap "root, and debootstrap" "not so"
[ $# -ge 1 ] || give_up words "a folder" "nothing"
mkdir -p "$1" || give_up folder "a folder" "none"
rooms=$(cd "$1" && pwd)
shift
[ $# -gt 0 ] || set -- bullseye bookworm trixie noble

# Makes the system $2 of the suite $1: a copy of a bare one, with make and a user, and with this checkout in both homes.
make_system() {
    local suite=$1 system=$2 mirror=http://deb.debian.org/debian script=sid home
    case $suite in focal | jammy | noble) mirror=http://archive.ubuntu.com/ubuntu script=jammy ;; esac
    if [ ! -e "$system.bare/made" ]; then
        rm -rf "$system.bare"
        debootstrap --variant=minbase "$suite" "$system.bare" "$mirror" "$script" && touch "$system.bare/made" || return 1
        [ "$script" = sid ] || sed -i 's/main$/main universe/' "$system.bare/etc/apt/sources.list"
    fi
    rm -rf "$system" && cp -a "$system.bare" "$system" && cp /etc/resolv.conf "$system/etc/" || return 1
    inside "$system" on root 'apt-get update && apt-get install -y --no-install-recommends make && useradd -m someone' || return 1
    for home in root home/someone; do
        git clone -q --no-hardlinks "$top" "$system/$home/district" || return 1
    done
    chroot "$system" chown -R someone: /home/someone
}

# Runs a command inside of a system, in the folder of the checkout if it is there: the system, on or off for the network, the
# user, the command.
inside() {
    local system=$1 network=$2 user=$3 home=/root flags=(-m)
    [ "$user" = root ] || home=/home/$user
    [ "$network" = on ] || flags+=(-n)
    # shellcheck disable=SC2016
    unshare "${flags[@]}" bash -c 'mount -t proc proc "$0/proc" && mount --rbind /dev "$0/dev" && cd / && exec env -i "${@:1}"' "$system" \
        PATH=/usr/local/sbin:/usr/local/bin:/usr/sbin:/usr/bin:/sbin:/bin HOME="$home" LANG=C.UTF-8 \
        chroot --userspec="$user" "$system" bash -c "[ ! -d ~/district ] || cd ~/district; $4" </dev/null
}

# Makes one trial: its name, its most seconds, and the words of `inside`.
try() {
    local name=$1 most=$2 log=$rooms/$suite.$1 status TIMEFORMAT='%0R s, of a processor %0U and %0S s' took
    shift 2
    took=$({ time inside "$@" >"$log" 2>&1; } 2>&1)
    status=$?
    echo "$suite/$name: status $status, $took"
    check "$suite/$name" "$status" "status 0" "status $status: $(tail -n 3 "$log" | brief)"
    [ "${took%% *}" -le "$most" ] || fails "$suite/$name/time" "at most $most s" "$took"
}

# Checks that a trial of the tests skipped by name what needs the toolchain, and that the last line counts it: the trial's name.
skips_by_name() {
    local log=$rooms/$suite.$1 wanted
    for wanted in 'SKIPPED planted_errors: missing: rt$' 'SKIPPED same_bytes: missing: rt$' 'tests/run: [0-9]+ passed, 0 failed, [1-9][0-9]* skipped'; do
        grep -qE "^$wanted" "$log"
        check "$suite/$1/skips" $? "$wanted" "$(tail -n 1 "$log" | brief)"
    done
}

# Returns whether a kind of trial is asked for.
wanted() {
    [[ " ${TRY:-audit wheel tests} " = *" $1 "* ]]
}

for suite; do
    system=$rooms/$suite
    make_system "$suite" "$system" >"$rooms/$suite.made" 2>&1 || { fails "$suite/made" "a system" "$(tail -n 2 "$rooms/$suite.made" | brief)"; continue; }
    if wanted audit; then
        try audit_fresh 60 "$system" on root 'make audit && cp -r out/audit /tmp/first'
        for user in root someone; do
            try "audit_$user" 60 "$system" off "$user" 'rm -rf ~/.cache out; make audit && cmp out/audit/report /tmp/first/report && [ -s out/audit/exhibit.html ]'
        done
    fi
    if wanted wheel; then
        wanted audit || inside "$system" on root 'apt-get install -y --no-install-recommends python3-venv' >>"$rooms/$suite.made" 2>&1
        for user in root someone; do
            try "wheel_$user" 600 "$system" off "$user" 'rm -rf ~/e ~/room && python3 -m venv ~/e && ~/e/bin/pip install --no-index release/*.whl &&
                mkdir ~/room && PATH=~/e/bin:$PATH python3 -m tests.system.guide_commands installed'
        done
    fi
    if wanted tests; then
        try tests_root 3600 "$system" on root 'make test'
        skips_by_name tests_root
        try tests_someone 3600 "$system" off someone 'make test'
        skips_by_name tests_someone
    fi
done
finish
