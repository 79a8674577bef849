# Completes the arguments of tw and ./tw in bash. ./dev editor writes this file.

# The folders, and the files with these endings, that begin with the word.
_tw_files() {
    local ending
    compgen -d -- "$word"
    for ending; do compgen -f -X "!*.$ending" -- "$word"; done
}

_tw() {
    local word=${COMP_WORDS[COMP_CWORD]} command=${COMP_WORDS[1]} all="asm disasm check run replay picture explain"
    COMPREPLY=()
    case ${COMP_WORDS[0]} in */*) all="$all test install package build" ;; esac
    if [ "$COMP_CWORD" = 1 ]; then
        COMPREPLY=($(compgen -W "$all help --help --version" -- "$word"))
        return
    fi
    case ${COMP_WORDS[COMP_CWORD - 1]} in
        --engines | --from | --jobs | --limit | --most-budget | --most-bytes | --most-data | --most-instructions | --most-members | --most-tasks | --seconds | --seed | --servers | --to | --workers)
            compopt +o bashdefault
            return ;;
        --each | --events | --inputs | --inputs-json)
            COMPREPLY=($(compgen -f -- "$word"))
            return ;;
    esac
    case $command:$word in
        help:*) COMPREPLY=($(compgen -W "$all" -- "$word")) ;;
        build:*) COMPREPLY=($(compgen -W "--library --help" -- "$word")) ;;
        install:-*) COMPREPLY=($(compgen -W "--uninstall --force --help" -- "$word")) ;;
        install:*) COMPREPLY=($(compgen -d -- "$word")) ;;
        package:*) COMPREPLY=($(compgen -W "deb wheel sdist crate tar" -- "$word")) ;;
        asm:-*) COMPREPLY=($(compgen -W "--help --names --plain --json" -- "$word")) ;;
        disasm:-*) COMPREPLY=($(compgen -W "--help --text --places --json" -- "$word")) ;;
        check:-*) COMPREPLY=($(compgen -W "--help --text --limit --most-tasks --most-instructions --most-data --most-bytes --most-budget --most-members --places --bounds --order --json" -- "$word")) ;;
        run:-*) COMPREPLY=($(compgen -W "--help --text --inputs --inputs-json --each --engines --servers --workers --in-turn --seed --jobs --limit --seconds --most-tasks --most-instructions --most-data --most-bytes --most-budget --most-members --order --trace --stats --json --picture --from --to --quiet" -- "$word")) ;;
        replay:-*) COMPREPLY=($(compgen -W "--help --text --events --inputs --engines --servers --workers --stats --json" -- "$word")) ;;
        picture:-*) COMPREPLY=($(compgen -W "--help --text --events --inputs --engines --servers --workers --from --to" -- "$word")) ;;
        explain:-*) COMPREPLY=($(compgen -W "--help --json" -- "$word")) ;;
        explain:*) COMPREPLY=($(compgen -W "H01 H02 H03 O01 O02 O03 O04 O05 O06 O07 E01 X01 A01 A02 A03 A04 A05 A06 A07 N01 N02 N03 N04 N05 N06 N07 N08 F01 F02 F03 F04 F05 F06 F07 F08 F09 V01 V02 V03 V04 V05 V06 V07 V08 V09 V10 V11 V12 V13 V14 V15 V16 V17 V18 C1 C2 C3 C4 C5 C6 C7 C8 C9 C10 C11 C12 C13 C14 C15" -- "${word^}")) ;;
        run:*) COMPREPLY=($(compgen -W "int: ints: text: texts: tints: ttexts:" -- "$word") $(_tw_files tw twn hex)) ;;
        replay:* | picture:*) COMPREPLY=($(compgen -W "int: ints: text: texts: tints: ttexts:" -- "$word") $(_tw_files tw twn hex history)) ;;
        asm:*) COMPREPLY=($(_tw_files tw twn)) ;;
        check:* | disasm:*) COMPREPLY=($(_tw_files tw twn hex)) ;;
    esac
    case ${COMPREPLY[0]} in *:) compopt -o nospace ;; esac
}
complete -o filenames -o bashdefault -F _tw tw
