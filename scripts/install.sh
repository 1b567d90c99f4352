#!/bin/bash
# Proves the auditor and installs it in a folder as one file, `district-audit`.
#
# Usage: scripts/install.sh FOLDER [slots] [gather] [built | unproved]
#   slots      installs `audit_slots`, too, which shows how far a run is
#   gather     installs `audit_gather`, too, which gathers the parts of a job
#   built      proves nothing: takes what the test command or an earlier rt run has proved and built
#   unproved   proves nothing: makes a build with checks in some minutes, to try things while the proof runs. Its files end with
#              `-unproved`. Each text that such a file writes, on either output, begins with a line that says so
# The first time all crates are proved, on all processors, with a line for each crate that is done; later only what changed. A program
# is installed only if it audits a small grid. `audit_slots` and `audit_gather` are one program, which goes by the name under which it
# is called.
# Beside each program NAME the file NAME.origin is written, and printed: the program's SHA-256, the commit that it was built from (with
# the word `built` the commit of the checkout), the line of `rt version`, and whether it is proved. A part that is not known is `unknown`.
# While a program builds, the commit of the clone and the line of `rt version` stand in the source files with the texts of --version. The
# same commit and kit give the same bytes. If the sources differ from the commit, --version answers that the commit is unknown; with the
# word `built`, it answers that both are.
# On failure, one line on standard error says why, and the status is 1.

here=$(cd "$(dirname "$0")" && pwd) || exit 1
# shellcheck source=usage.sh
. "$here/usage.sh"
help_where_asked "$@"
room=$(mktemp -d) || exit 1
trap 'unstamp; rm -rf "$room"' EXIT

# The files with the texts of --version, one for each program, and those of them that have commit and kit.
builds=("$here"/../crates/audit_{program,folders}/src/this_build.rt)
stamped=()

# Takes commit and kit out of the files that a killed build left there.
clear_stamps() {
    local file
    for file in "${builds[@]}"; do
        [ "$(grep -cE '^ *(commit|kit): "unknown",$' "$file")" -eq 2 ] ||
            sed -i -E 's/^( *(commit|kit)): ".*",$/\1: "unknown",/' "$file" || fail "$file cannot be written"
    done
}

# Prints the line of `rt version`, or `unknown` if there is none that can stand in a source text.
kit_line() {
    local line
    line=$(rt version </dev/null 2>/dev/null | head -n 1)
    [[ $line =~ ^[A-Za-z0-9\ ._+-]{1,100}$ ]] || line=unknown
    echo "$line"
}

# Writes the kit into the files, and the commit of the clone if the sources are those of the commit.
stamp() {
    local commit=unknown file top=$here/..
    if [ -z "$(git -C "$top" status --porcelain -- crates crates.txt HANDLES 2>&1)" ]; then
        commit=$(git -C "$top" rev-parse --verify HEAD 2>/dev/null) || commit=unknown
    fi
    for file in "${builds[@]}"; do
        cp -p "$file" "$room/${#stamped[@]}.rt" || fail "$file cannot be copied"
        stamped+=("$file")
        sed -i "s/commit: \"unknown\"/commit: \"$commit\"/; s/kit: \"unknown\"/kit: \"$kit\"/" "$file" || fail "$file cannot be written"
    done
}

# Takes commit and kit back out of the files, so that the clone is as it was.
unstamp() {
    local place
    for place in "${!stamped[@]}"; do
        cp -p "$room/$place.rt" "${stamped[place]}"
    done
    stamped=()
}

fail() {
    echo "install: $1" >&2
    exit 1
}

slots=no
gather=no
built=no
unproved=no
usage="usage: scripts/install.sh FOLDER [slots] [gather] [built | unproved]"
for word in "${@:2}"; do
    case $word in
        slots) slots=yes ;;
        gather) gather=yes ;;
        built) built=yes ;;
        unproved) unproved=yes ;;
        *) fail "the word $word is unknown; $usage" ;;
    esac
done
[ $# -ge 1 ] || fail "the folder is missing; $usage"
[ $built$unproved != yesyes ] || fail "give one of the words built and unproved, not both: what is built is proved; $usage"
mkdir -p "$1" || fail "the folder $1 cannot be made"
place=$(cd "$1" && pwd) || exit 1
[ $built = yes ] || command -v rt >/dev/null || fail "the toolchain's command rt was not found: put its folder on PATH"

# Prints the commit of the checkout. Changes that are in no commit are named.
commit_of_checkout() {
    local commit parts=(crates crates.txt HANDLES scripts)
    commit=$(git -C "$here/.." rev-parse --verify HEAD 2>/dev/null) || { echo unknown; return; }
    [ -z "$(git -C "$here/.." status --porcelain -- "${parts[@]}" 2>/dev/null)" ] || commit="$commit with changes"
    echo "$commit"
}

# Prints what the program $place/$1 is, and leaves that beside it. $2 says whether it is proved.
tell_origin() {
    local name=$1 source=commit
    [ $built = no ] || source=checkout
    {
        echo "sha256 $(sha256sum <"$place/$name" | cut -d ' ' -f 1)"
        echo "$source $checkout"
        echo "kit $kit"
        echo "proved $2"
    } >"$place/$name.origin.new" && mv "$place/$name.origin.new" "$place/$name.origin" || fail "$place/$name.origin cannot be written"
    echo "$place/$name"
    sed 's/^/  /' "$place/$name.origin"
}

# Proves the program in the crate $1, copies it as $2, runs it under this name with the other words, and leaves it where it does.
leave() {
    local crate=$1 name=$2 first=()
    local program=$here/../crates/$crate/out/$crate
    shift 2
    # Under the name of its crate the program goes by its first word.
    [ "$crate" != audit_folders ] || first=("${name#audit_}")
    if [ $built = no ]; then
        (cd "$here/../crates/$crate" && rt run -- "${first[@]}" "$@" </dev/null) >"$room/proved" 2>&1 ||
            fail "$crate was not proved, or did not run: $(tail -n 1 "$room/proved" | head -c 300)"
    fi
    [ -x "$program" ] || fail "there is no program $program"
    cp "$program" "$room/$name" && "$room/$name" "$@" </dev/null >"$room/said" 2>&1 || fail "$program does not run: $(head -c 300 "$room/said")"
    cp "$program" "$place/$name.new" && mv "$place/$name.new" "$place/$name" || fail "$place/$name cannot be written"
    tell_origin "$name" yes
    # The tests call the program in its crate's folder, and learn there which kit its --version may name.
    cp "$place/$name.origin" "$program.origin" || fail "$program.origin cannot be written"
}

# ---- a build that is not proved

# Keeps in the folder $2 what `rt try` makes below $1 and removes afterwards: the module for its compiler, named `module`, and its executables. Each
# gets a second name, so that it stays; once a process runs an executable, which has much to do, that one is named `ran`, and the process is ended.
keep_build() {
    local file process
    until [ -e "$2/ran" ]; do
        sleep 0.1
        find "$1" -name module.bc -exec ln -f {} "$2/module" \;
        while IFS= read -r -d '' file; do
            ln "$file" "$2/$(stat -c %i "$file")"
        done < <(find "$1" -type f -perm -u+x -size +100k -print0)
        for process in /proc/[0-9]*; do
            for file in "$2"/*; do
                if [ "$process/exe" -ef "$file" ]; then
                    find "$1" -name module.bc -exec ln -f {} "$2/module" \;
                    mv "$file" "$2/ran"
                    kill -9 "${process#/proc/}"
                    return
                fi
            done
        done
    done 2>/dev/null
}

# Compiles and links as $2 the module $1 that was kept, without the checks of memory that `rt try` adds. The kit's own compiler reads it.
compile_module() {
    local kit
    kit=$(rt doc </dev/null 2>/dev/null | tail -n 1)
    kit=${kit%/*}
    "$kit/toolchain/bin/clang" -O2 -c -Wno-override-module -x ir "$1" -o "$room/module.o" </dev/null >"$room/compiled" 2>&1 &&
        gcc "$room/module.o" "$kit/c/libos_c.a" "$kit/c/liblibc_c.a" -lpthread -o "$2" >"$room/compiled" 2>&1
}

# Builds the program of the crate $1 by `rt try` and leaves the executable as $2. The other words are those of a run that takes long.
build_unproved() {
    local crate=$1 built=$2 watcher status file
    shift 2
    command -v rt >/dev/null || fail "the toolchain's command rt was not found: put its folder on PATH"
    rm -rf "$room/try" "$room/kept"
    mkdir "$room/try" "$room/kept" || fail "a folder for the build cannot be made below $room"
    echo "install: building $crate without a proof, which takes some minutes"
    keep_build "$room/try" "$room/kept" &
    watcher=$!
    (cd "$here/../crates/$crate" && TMPDIR=$room/try rt try -- "$@" </dev/null) >"$room/tried" 2>&1
    status=$?
    kill $watcher 2>/dev/null
    wait $watcher 2>/dev/null
    # How its run ended is of no account, since it may have been ended here: the program runs again before it is left.
    for file in "$room"/kept/*; do
        if [ "$(head -c 4 "$file" 2>/dev/null | tail -c 3)" = ELF ]; then
            [ -s "$room/kept/module" ] && compile_module "$room/kept/module" "$built" && return
            echo "install: this build of $crate is slow: no module was compiled: $(head -n 1 "$room/compiled" 2>/dev/null | head -c 200)"
            mv "$file" "$built" || fail "$built cannot be written"
            return
        fi
    done
    fail "rt try did not build and run $crate: status $status, $(grep -v '^$' "$room/tried" | tail -n 1 | head -c 300)"
}

# The text before an executable that is packed behind it: it says on both outputs that nothing is proved, and then becomes the program, so that
# signals, status, input and output are the program's own. $1 is the file's name, $2 the name under which the program goes, and $3 the line at
# which the program begins.
unproved_head() {
    cat <<END
#!/bin/bash
# $2 as a build that is NOT PROVED, to try things while the proof runs. Do not file what it prints. The program is packed behind this text.
say='$1: NOT PROVED: this build was made without a proof, to try things; do not file what it prints'
trap '' PIPE
{ printf '%s\n' "\$say"; } 2>/dev/null
printf '%s\n' "\$say" >&2
fail() {
    echo "$1: \$1" >&2
    exit 126
}
room=\$(mktemp -d) || fail "a temporary folder to unpack the program cannot be made; TMPDIR may name another place"
trap 'rm -rf "\$room"' EXIT
tail -n +$3 "\$0" >"\$room/program" || fail "the program cannot be unpacked in \$room"
chmod 700 "\$room/program" || fail "the program cannot be made executable in \$room"
exec {program}<"\$room/program" || fail "the program cannot be opened in \$room"
rm -rf "\$room"
trap - EXIT
exec -a $2 "/proc/self/fd/\$program" "\$@"
fail "the program does not start: may files in \${TMPDIR:-/tmp} be executed?"
exit 126
END
}

# Tests that the program $1 runs with the other words, and says on both outputs that it is not proved.
says_unproved() {
    local file
    "$@" </dev/null >"$room/said" 2>"$room/said_note" || return 1
    for file in said said_note; do
        head -n 1 "$room/$file" | grep -q '^[^:]*: NOT PROVED: ' || return 1
    done
    [ "$(wc -l <"$room/said")" -gt 1 ]
}

# Leaves the executable $1 as $2-unproved, where it makes a run with the other words and says that it is not proved.
leave_unproved() {
    local built=$1 name=$2 file=$2-unproved lines
    shift 2
    lines=$(unproved_head "$file" "$name" 0 | wc -l)
    if ! { unproved_head "$file" "$name" $((lines + 1)) && cat "$built"; } >"$room/$file" || ! chmod 755 "$room/$file"; then
        fail "$room/$file cannot be written"
    fi
    says_unproved "$room/$file" "$@" || fail "the build of $name does not run, or does not say what it is: $(tail -n 1 "$room/said_note" | head -c 300)"
    if ! cp "$room/$file" "$place/$file.new" || ! mv "$place/$file.new" "$place/$file"; then
        fail "$place/$file cannot be written"
    fi
    tell_origin "$file" no
}

# Leaves all that is asked for without a proof.
install_unproved() {
    local small=(make --size 1 --slack 5000 --steps 100 --ask cut-edges:low --key "$(printf '%064d' 0)")
    local long=(make --size 30 --slack 1000 --walks 100000 --steps 1000000000 --ask cut-edges:low --key "$(printf '%064d' 0)")
    build_unproved audit_program "$room/auditor" "${long[@]}"
    leave_unproved "$room/auditor" district-audit "${small[@]}"
    [ $slots$gather = nono ] && return
    build_unproved audit_folders "$room/folders" gather --look yes "${long[@]}"
    [ $slots = no ] || leave_unproved "$room/folders" audit_slots "$room"
    [ $gather = no ] || leave_unproved "$room/folders" audit_gather --look yes "${small[@]}"
}

# Proves all crates on all processors, and prints a line for each that is done.
prove() {
    local line done=0 count read=0
    echo "install: reading the sources first, which takes some minutes if nothing was proved before"
    count=$(grep -c '^[a-z]' "$here/../crates.txt")
    (cd "$here/.." && rt all check --jobs "$(nproc)" </dev/null 2>&1; echo "ended $?") | tee "$room/proofs" | while read -r line; do
        case $line in
            '== summary') ;;
            only=*)
                read=$((read + 1))
                echo "install: $read sources read"
                ;;
            '== '*)
                done=$((done + 1))
                echo "install: $done of $count crates: ${line#== }"
                ;;
        esac
    done
    [ "$(tail -n 1 "$room/proofs")" = "ended 0" ] ||
        fail "not proved: $(sed -n '/^== summary$/,$p' "$room/proofs" | grep -v ': ok$' | sed 1d | head -n 3 | tr '\n' ' ')"
}

[ $built = yes ] || clear_stamps
# Asked before the commit is written into files, which changes them.
checkout=$(commit_of_checkout)
kit=$(kit_line)
[ $built = yes ] || stamp
if [ $unproved = yes ]; then
    install_unproved
    exit
fi
[ $built = yes ] || prove
leave audit_program district-audit make --size 1 --slack 5000 --steps 100 --ask cut-edges:low \
    --key 0000000000000000000000000000000000000000000000000000000000000000
[ $slots = no ] || leave audit_folders audit_slots "$room"
[ $gather = no ] || leave audit_folders audit_gather --look yes make --size 1 --slack 5000 --steps 100 --ask cut-edges:low \
    --key 0000000000000000000000000000000000000000000000000000000000000000
