# The help of the bash scripts of this folder. A script reads this file and calls `help_where_asked "$@"`: with --help it prints the
# comment at its head and ends with status 0.
# shellcheck shell=bash

help_where_asked() {
    local word
    for word in "$@"; do
        case $word in
            --help | -h)
                sed -n '2,/^[^#]/{/^#/s/^# \{0,1\}//p}' "$0"
                exit 0
                ;;
        esac
    done
}
