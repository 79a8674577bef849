#compdef tw
# Completes the arguments of tw and ./tw in zsh. ./dev editor writes this file.
local -a all
all=(asm disasm check run replay picture explain)
case $words[1] in */*) all+=(test install package build) ;; esac
if (( CURRENT == 2 )); then
    compadd -- $all help --help --version
    return
fi
case $words[CURRENT-1] in
    --engines | --from | --jobs | --limit | --most-budget | --most-bytes | --most-data | --most-instructions | --most-members | --most-tasks | --seconds | --seed | --servers | --to | --workers)
        _message number
        return ;;
    --each | --events | --inputs | --inputs-json)
        _files
        return ;;
esac
case $words[2]:$PREFIX in
    help:*) compadd -- $all ;;
    build:*) compadd -- --library --help ;;
    install:-*) compadd -- --uninstall --force --help ;;
    install:*) _files -/ ;;
    package:*) compadd -- deb wheel sdist crate tar ;;
    asm:-*) compadd -- --help --names --plain --json ;;
    disasm:-*) compadd -- --help --text --places --json ;;
    check:-*) compadd -- --help --text --limit --most-tasks --most-instructions --most-data --most-bytes --most-budget --most-members --places --bounds --order --json ;;
    run:-*) compadd -- --help --text --inputs --inputs-json --each --engines --servers --workers --in-turn --seed --jobs --limit --seconds --most-tasks --most-instructions --most-data --most-bytes --most-budget --most-members --order --trace --stats --json --picture --from --to --quiet ;;
    replay:-*) compadd -- --help --text --events --inputs --engines --servers --workers --stats --json ;;
    picture:-*) compadd -- --help --text --events --inputs --engines --servers --workers --from --to ;;
    explain:-*) compadd -- --help --json ;;
    explain:*) compadd -M 'm:{a-z}={A-Z}' -- H01 H02 H03 O01 O02 O03 O04 O05 O06 O07 E01 X01 A01 A02 A03 A04 A05 A06 A07 N01 N02 N03 N04 N05 N06 N07 N08 F01 F02 F03 F04 F05 F06 F07 F08 F09 V01 V02 V03 V04 V05 V06 V07 V08 V09 V10 V11 V12 V13 V14 V15 V16 V17 V18 C1 C2 C3 C4 C5 C6 C7 C8 C9 C10 C11 C12 C13 C14 C15 ;;
    run:*) compadd -S '' -- int: ints: text: texts: tints: ttexts:; _files -g '*.(tw|twn|hex)' ;;
    replay:* | picture:*) compadd -S '' -- int: ints: text: texts: tints: ttexts:; _files -g '*.(tw|twn|hex|history)' ;;
    asm:*) _files -g '*.(tw|twn)' ;;
    check:* | disasm:*) _files -g '*.(tw|twn|hex)' ;;
esac
