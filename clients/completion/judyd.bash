# Completion of the server judyd in bash. ./install puts it where bash-completion finds it; otherwise source it.

# The words that may follow a command.
_judyd_words() {
    case $1 in
        '') echo "run serve compact repair journal help --help --version" ;;
        run) echo "--words --batch --help" ;;
        serve)
            echo "--config --socket --status --control --clients --tenant-clients --share --connections --login --idle --turn" \
                "--reserve --journal --sync --segment --new-journal --check --help"
            ;;
        journal) echo "--tenant --new --check --help" ;;
        compact) echo "--help" ;;
        repair) echo "--yes --drop-later --help" ;;
        help) echo "run serve compact repair journal help" ;;
    esac
}

_judyd() {
    local current=${COMP_WORDS[COMP_CWORD]} before=${COMP_WORDS[COMP_CWORD - 1]} command=
    [ "$COMP_CWORD" -le 1 ] || command=${COMP_WORDS[1]}
    COMPREPLY=()
    case $before in
        --config | --socket | --status | --control)
            mapfile -t COMPREPLY < <(compgen -f -- "$current")
            return
            ;;
        --journal)
            mapfile -t COMPREPLY < <(compgen -d -- "$current")
            return
            ;;
        --sync)
            mapfile -t COMPREPLY < <(compgen -W "round never" -- "$current")
            return
            ;;
        --clients | --tenant-clients | --share | --connections | --login | --idle | --turn | --reserve | --segment | --tenant)
            return
            ;;
    esac
    mapfile -t COMPREPLY < <(compgen -W "$(_judyd_words "$command")" -- "$current")
    case $command in
        compact | repair | journal)
            [ ${#COMPREPLY[@]} -gt 0 ] || mapfile -t COMPREPLY < <(compgen -d -- "$current")
            ;;
    esac
}

complete -o filenames -F _judyd judyd
