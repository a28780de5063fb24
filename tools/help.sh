# SPDX-License-Identifier: Apache-2.0
# Sourced by those who start mserve by its name: the program writes help to the standard error, and people read it through a pipe.

# Whether words ask for help.
asks_for_help() {
    [ "${1-}" != help ] || return 0
    for word in "$@"; do
        case $word in
        --help | -h) return 0 ;;
        esac
    done
    return 1
}

# From here on the standard error is the standard output, if the words after the first one ask for help; the first one names the command that says
# where settings and stores are wrong. The status stays the program's.
help_on_output() {
    local tip=$1
    shift
    if asks_for_help "$@"; then
        echo "mserve: if settings or a store are refused, $tip FILE --store STORE says where and why" >&2
        exec 2>&1
    fi
}
