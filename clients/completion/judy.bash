# Completion of the command line judy in bash. ./install puts it where bash-completion finds it; otherwise
# source it.

_judy_commands="add status top stop reload kick thaw wait dump load check backup restore compact ship receive move table digest help"
# python3 tests/calls.py --write writes these words
_judy_calls="\
AUTH HELLO J1BC J1C J1F J1FA J1FE J1I J1L J1LE J1N J1NE J1P J1PE J1S J1SE J1T J1U J1UF J1UR JHSA \
JHSD JHSF JHSFA JHSG JHSI JHSK JHSN JHST JHSX JLA JLBC JLC JLD JLDF JLDR JLF JLFA JLFE JLG JLI JLIE \
JLK JLL JLLE JLN JLNE JLP JLPE JLT JLX JSLA JSLD JSLDF JSLF JSLFA JSLG JSLI JSLK JSLL JSLN JSLP JSLT \
JSLX NAMES PING QUIT USED"
_judy_options="-s --socket -t --tcp --tls --ca -u --user --token-file --timeout --pretty --hold"

# The command among the words before the one to complete.
_judy_command() {
    local word
    for word in "${COMP_WORDS[@]:1:COMP_CWORD-1}"; do
        case " $_judy_commands $_judy_calls " in
            *" $word "*)
                echo "$word"
                return
                ;;
        esac
    done
}

# The words that may follow a command.
_judy_words() {
    case $1 in
        '') echo "$_judy_commands $_judy_calls $_judy_options --version --help" ;;
        help) echo "$_judy_commands $_judy_calls --help" ;;
        add) echo "JL: JSL: JHS: $_judy_options --help" ;;
        status | wait) echo "$_judy_options --help" ;;
        top) echo "--once --timeout --help" ;;
        stop | reload | kick | thaw) echo "--timeout --help" ;;
        dump) echo "J1: JL: JSL: JHS: -o --output --all --empty $_judy_options --help" ;;
        load) echo "--unchecked $_judy_options --help" ;;
        check) echo "--unchecked --whole $_judy_options --help" ;;
        backup) echo "--folder $_judy_options --help" ;;
        restore) echo "--control --all $_judy_options --help" ;;
        compact) echo "--when --help" ;;
        ship) echo "--once --status --help" ;;
        receive) echo "--help" ;;
        move) echo "J1: JL: JSL: JHS: --to --new-token-file --free --part --all $_judy_options --help" ;;
        table) echo "add set drop-old remove --quota --pieces --journal --token --look --keep-old --help" ;;
        digest) echo "--look --help" ;;
    esac
}

_judy() {
    local current=${COMP_WORDS[COMP_CWORD]} before=${COMP_WORDS[COMP_CWORD - 1]} command words
    COMPREPLY=()
    case $before in
        --status | -s | --socket | --ca | --control | --token-file | --to | --new-token-file | --folder | -o | --output)
            mapfile -t COMPREPLY < <(compgen -f -- "$current")
            return
            ;;
        -t | --tcp | -u | --user | --timeout | --quota | --pieces | --journal | --when)
            return
            ;;
    esac
    command=$(_judy_command)
    words=$(_judy_words "$command")
    # A path comes next, and no word, if this is no option.
    case $command:$before:$current in
        *:*:-*) ;;
        table:table:* | status:* | top:* | stop:* | reload:* | kick:* | thaw:* | load:* | check:* | backup:* | restore:* | compact:* | ship:* | receive:*) words= ;;
    esac
    mapfile -t COMPREPLY < <(compgen -W "$words" -- "$current")
    case $command in
        '' | status | top | stop | reload | kick | thaw | load | check | backup | restore | compact | ship | receive | table)
            [ ${#COMPREPLY[@]} -gt 0 ] || mapfile -t COMPREPLY < <(compgen -f -- "$current")
            ;;
    esac
}

complete -o filenames -F _judy judy
