# SPDX-License-Identifier: Apache-2.0
# Completion of mserve's command line for bash: `. packaging/mserve.bash`, or a copy in /usr/share/bash-completion/completions.

_mserve() {
    local word=${COMP_WORDS[COMP_CWORD]} before=${COMP_WORDS[COMP_CWORD - 1]} command=${COMP_WORDS[1]-}
    case $before in
    --settings)
        mapfile -t COMPREPLY < <(compgen -f -- "$word")
        return
        ;;
    --store)
        mapfile -t COMPREPLY < <(compgen -W memory -- "$word"; compgen -f -- "$word")
        return
        ;;
    --only | --port | --connections)
        return
        ;;
    esac
    if [ "$COMP_CWORD" -eq 1 ]; then
        mapfile -t COMPREPLY < <(compgen -W "run serve help --help --version" -- "$word")
    elif [ "$command" = run ]; then
        mapfile -t COMPREPLY < <(compgen -W "--settings --store --only --help" -- "$word")
    elif [ "$command" = serve ]; then
        mapfile -t COMPREPLY < <(compgen -W "--settings --store --port --connections --help" -- "$word")
    elif [ "$command" = help ]; then
        mapfile -t COMPREPLY < <(compgen -W "run serve" -- "$word")
    fi
}

complete -F _mserve mserve ./mserve
