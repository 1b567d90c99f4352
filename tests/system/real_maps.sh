#!/bin/bash
# Real maps: prepared, checked, walked and audited by the real program, and each text, note and status compared with the plain model's.
#
# Usage: tests/system/real_maps.sh                  checks the two maps of examples/data, and the drawn one with counties and a group.
#                                                   Where Debian's packages with their polygons are installed, also the twelve maps of
#                                                   real_maps.py. They count as skipped elsewhere.
#        tests/system/real_maps.sh fetch [FOLDER]   downloads the packages (10 MB) and installs nothing of them. Makes the twelve maps in
#                                                   the folder, or in one that is removed afterwards, and prints a row for each plan.
# The program is that of rt ci and rt run, or the one that the variable DISTRICT_AUDIT names.
#
# RUN:

source "$(dirname "$0")/../checks.sh"
cd "$top" || exit 1
auditor=$(program audit_program "${DISTRICT_AUDIT:-}") || give_up program "the built program" "no program"
room=$(mktemp -d) || give_up folder "a temporary folder" "none"
trap 'rm -rf "$room"' EXIT
packages=(r-cran-spdata r-cran-sf r-cran-maps python3-libpysal)
places=(/usr/lib/R/site-library/{spData/shapes,sf/shape,maps/mapdata} /usr/lib/python3/dist-packages/libpysal/examples)
asks=seats:low,mean-median:high,gap:high,cut-edges:low
key=$(printf 'real maps' | sha256sum | cut -c 1-64)

# The auditor has to end as the plain model does, on the graph $1, with status $2: the same text and the same note.
same() {
    local name
    name=$(basename "$1" .json)/$(tr -c 'a-z0-9\n' _ <<<"${*:3:1} ${*:11}" | tr -s _ | cut -c 1-100)
    "$auditor" "${@:3}" <"$1" >"$room/text" 2>"$room/note"
    local ended=$?
    python3 -m tests.system.real_maps model "${@:3}" <"$1" >"$room/model_text" 2>"$room/model_note"
    same_text "$name/model_ends" "status $2" "status $?"
    same_text "$name/ends" "status $2, note: $(cat "$room/model_note")" "status $ended, note: $(cat "$room/note")"
    same_file "$name/text" "$room/text" "$room/model_text" "the plain model's text"
}

# ---- the two maps of examples/data

# The first or second block of code that examples/README.md has below the heading $1.
block() {
    awk -v heading="## $1" -v wanted="$2" '$0 == heading { found = 1 } found && /^```/ { fences++; next } found && fences == 2 * wanted - 1' examples/README.md
}

# Below the heading $1 that page has a command and its report: the command prints it, and it is the plain model's last text.
check_page() {
    block "$1" 2 >"$room/page"
    block "$1" 1 >"$room/command"
    (
        cd crates/audit_program || exit 1
        rt() { "$auditor" "${@:3}"; }
        district-audit-prepare() { prepare "$@"; }
        source "$room/command"
    ) >"$room/text" 2>"$room/said"
    same_file "${1%.json}/page_command" "$room/text" "$room/page" "the report of examples/README.md"
    same_file "${1%.json}/page_report" "$room/page" "$room/model_text" "the plain model's report"
    [ -s "$room/page" ]
    check "${1%.json}/page_has_a_report" $? "a report in examples/README.md" "nothing"
}

check_example_maps() {
    local columns=(--pop BIR74 --first NWBIR74 --second WBIR74 --district PLAN11)
    prepare "$data/nc.json" "${columns[@]}" --slack 1000 --out "$room/nc.json" 2>"$room/log"
    check nc/prepared $? "status 0" "$(tail -n 1 "$room/log")"
    same "$room/nc.json" 0 check "${columns[@]}" --slack 1000
    same "$room/nc.json" 2 check "${columns[@]}" --slack 100
    same "$room/nc.json" 0 run "${columns[@]}" --slack 1000 --key "$key" --walks 2 --steps 2047 --ends 19 --hub-steps 500 --serial yes \
        --ask mean-median:high,cut-edges:low
    check_page nc.json
    columns=(--pop POP8 --first OWNING --second OTHERS --district PLAN8)
    local region=(--region COUNTY --max-split)
    prepare "$data/ny8.json" "${columns[@]}" --numbers nearest --slack 1000 --region COUNTY --out "$room/ny8.json" 2>"$room/log"
    check ny8/prepared $? "status 0" "$(tail -n 1 "$room/log")"
    same "$room/ny8.json" 0 check "${columns[@]}" --slack 1000 "${region[@]}" 4
    same "$room/ny8.json" 2 check "${columns[@]}" --slack 1000 "${region[@]}" 3
    same "$room/ny8.json" 0 run "${columns[@]}" --slack 1000 --key "$key" --walks 1 --steps 2047 --ends 9 --hub-steps 500 "${region[@]}" 4 \
        --shift yes --ask gap:high,cut-edges:low
    check_page ny8.json
    mkdir "$room/two" && cp "$data/nc.json" "$data/ny8.json" "$room/two"
    local nc='--pop BIR74 --first NWBIR74 --second WBIR74 --numbers nearest --missing zero'
    local ny8='--pop POP8 --first OWNING --second OTHERS --numbers nearest --missing zero --region COUNTY'
    printf '%s\t%s\t1000\tPLAN%s\t%s\t%s\t%s\n' nc 2 2 - 0 "$nc" nc 11 11 - 0 "$nc" ny8 2 2 COUNTY 2 "$ny8" ny8 8 8 COUNTY 4 "$ny8" >"$room/two/plans"
    compare_drawn "$room/two" 12
}

# The map that counties.py draws: each limit at what the plan has, and one below it.
check_drawn_map() {
    python3 -m bench.counties --small >"$room/small.json"
    same_file groups/written "$room/small.json" "$data/groups.json" "groups.json of examples/data"
    local words=(--pop pop --first a --second b --district d --slack 1000) group=(--group bvap --group-of vap)
    same "$data/groups.json" 0 check "${words[@]}" --region county --max-splits 2 --max-split-regions 2 "${group[@]}" --group-districts 2 --source yes
    same "$data/groups.json" 2 check "${words[@]}" --region county --max-splits 1 --max-split-regions 1 "${group[@]}" --group-districts 3 --source yes
    same "$data/groups.json" 2 check "${words[@]}" --region county --max-splits 2 --max-split-regions 1 "${group[@]}" --group-districts 3
    same "$data/groups.json" 2 check "${words[@]}" --region county --max-splits 2 --max-split-regions 2 "${group[@]}" --group-districts 3
    same "$data/groups.json" 2 check "${words[@]}" --group bvap --group-districts 1
    same "$data/groups.json" 0 run "${words[@]}" --region county --max-splits 3 --max-split-regions 3 "${group[@]}" --group-districts 2 --source yes \
        --key "$(printf groups | sha256sum | cut -c 1-64)" --walks 1 --steps 2047 --ends 9 --hub-steps 500 --ask mean-median:high,cut-edges:low
    check_page groups.json
}

# Drawn words on the maps of the folder $1, in $2 runs, end as by the plain model.
compare_drawn() {
    python3 -m tests.differential.compare_maps "$auditor" "$1" "$2" >"$room/log" 2>&1
    check "drawn_words_on_$(basename "$1")" $? "status 0" "$(head -n 1 "$room/log")"
}

# ---- the twelve maps

# How long the start plan's walk of a million steps takes, and how many of a thousand move; four workers print the same.
time_walk() {
    local words=(run "${@:2}" --key "$key" --walks 4 --steps 250000 --ask cut-edges:low) begin
    begin=$(date +%s%N)
    "$auditor" "${words[@]}" <"$1" >"$room/walk" 2>&1
    check "$(basename "$1" .json)/walked" $? "status 0" "$(tail -n 1 "$room/walk")"
    took=$((($(date +%s%N) - begin) / 1000000))
    "$auditor" "${words[@]}" --workers 4 <"$1" >"$room/four" 2>&1
    same_file "$(basename "$1" .json)/walked_by_four" "$room/four" "$room/walk" "the report of one worker"
    moves=$(awk '/^walk / { sum += $4 } END { printf "%.1f", sum / 1000 }' "$room/walk")
}

# One plan, of a line of `plans`: the map, how many districts, the tolerance, the column, the regions and how often one is split, the words.
check_plan() {
    local words graph=$room/$1-$2.json columns steps=2047 units edges
    eval "words=($7)"
    prepare "$maps/$1.json" "${words[@]}" --district "$4" --slack "$3" --out "$graph" 2>"$room/log"
    check "$1-$2/prepared" $? "status 0" "$(tail -n 1 "$room/log")"
    columns=("${words[@]:0:6}" --district "$4" --slack "$3")
    same "$graph" 0 check "${columns[@]}"
    read -r _ units _ edges _ < <(sed -n 2p "$room/text")
    same "$graph" 2 check "${columns[@]:0:8}" --slack 0
    [ "${units:-0}" -lt 400 ] || steps=1023
    [ "${units:-0}" -lt 2000 ] || steps=255
    local audit=(--key "$key" --ends 3 --hub-steps 60 --serial yes --shift yes --ask $asks)
    same "$graph" 0 run "${columns[@]}" --walks 1 --steps $steps "${audit[@]}"
    if [ "$5" != - ]; then
        same "$graph" 0 run "${columns[@]}" --walks 0 --steps 127 "${audit[@]}" --region "$5" --max-split "$6"
        [ "$6" -lt 2 ] || same "$graph" 2 check "${columns[@]}" --region "$5" --max-split $(($6 - 1))
    fi
    time_walk "$graph" "${columns[@]}"
    printf '| %s | %s | %s | %s | %s | %s | %s |\n' "$1" "$units" "$edges" "$2" "$3" "$moves" "$took"
}

check_twelve_maps() {
    maps=${2:-$room/maps}
    "$python" -m tests.system.real_maps published "$1" >"$room/log" 2>&1
    check published_edges $? "the edges of the published lists" "$(head -n 1 "$room/log")"
    "$python" -m tests.system.real_maps make "$1" "$maps" 2>"$room/log"
    check maps_made $? "status 0" "$(tail -n 1 "$room/log")"
    [ "$(cut -f 1 "$maps/plans" | sort -u | grep -c .)" -eq 12 ] && [ "$(grep -c . "$maps/plans")" -eq 24 ]
    check two_plans_each $? "two plans for each of twelve maps" "$(cut -f 1 "$maps/plans" | sort | uniq -c | brief)"
    local name line
    for name in nc ny8; do
        same_file "$name/written" "$maps/$name.json" "$data/$name.json" "the map of examples/data"
    done
    echo '| map | units | edges | districts | tolerance | moves of a thousand steps | milliseconds for a million steps |'
    echo '| --- | --- | --- | --- | --- | --- | --- |'
    while IFS=$'\t' read -r -a line <&3; do check_plan "${line[@]}"; done 3<"$maps/plans"
    compare_drawn "$maps" 48
}

# Downloads the packages and unpacks them; nothing is installed.
fetch() {
    local got=$room/packages
    mkdir -p "$got"
    (cd "$got" && { apt-get download "${packages[@]}" || { apt-get update && apt-get download "${packages[@]}"; }; }) >"$room/log" 2>&1
    check packages $? "status 0" "$(tail -n 1 "$room/log")"
    local file
    for file in "$got"/*.deb; do dpkg-deb -x "$file" "$got"; done
}

modules() {
    python=$(scripts/needs.sh python shapefile shapely)
    [ -n "$python" ] && "$python" -m tests.system.real_maps modules 2>/dev/null
}

case ${1:-} in
    fetch)
        if ! modules && [ "$(id -u)" = 0 ]; then
            { apt-get install -y --no-install-recommends python3-shapely python3-pyshp || { apt-get update; apt-get install -y --no-install-recommends python3-shapely python3-pyshp; }; } >/dev/null 2>&1
        fi
        if ! modules; then
            echo "real_maps: python3-shapely and python3-pyshp are missing; as root: apt-get install -y python3-shapely python3-pyshp" >&2
            exit 1
        fi
        fetch
        check_example_maps
        check_drawn_map
        check_twelve_maps "$room/packages" "${2:-}"
        ;;
    '')
        check_example_maps
        check_drawn_map
        if ls "${places[@]}" >/dev/null 2>&1 && modules; then
            check_twelve_maps /
        else
            skips twelve_maps "their packages are not installed here: ${packages[*]} python3-shapely python3-pyshp"
        fi
        ;;
    *)
        echo "real_maps: the word $1 is unknown; usage: tests/system/real_maps.sh [fetch [FOLDER]]" >&2
        exit 2
        ;;
esac
finish
