# Made by scripts/completions.py from the texts of --help: change those.
_ir() {
    local word=${COMP_WORDS[COMP_CWORD]} words=
    if ((COMP_CWORD == 1)); then
        words="asm elf list record hunt shrink explore debug gdb trace events stale who why diff view help --help --version"
    elif [[ $word == -* ]]; then
        case ${COMP_WORDS[1]} in
            asm) words="--map --explain --help" ;;
            elf) words="--explain --help" ;;
            list) words="--map --help" ;;
            record) words="--order --order-file --chaos --by --budget --random --profile --input --output --status --help" ;;
            hunt) words="--seeds --until --by --jobs --seconds --shrink --budget --random --profile --input --output --help" ;;
            shrink) words="--until --seconds --random --input --output --help" ;;
            explore) words="--until --states --switches --private --seconds --max --random --profile --input --output --within --only --help" ;;
            debug) words="--help" ;;
            gdb) words="--help" ;;
            trace) words="--help" ;;
            events) words="--map --help" ;;
            stale) words="--image --help" ;;
            who) words="--image --word --help" ;;
            why) words="--lines --image --at --help" ;;
            diff) words="--help" ;;
            view) words="--json --chrome --around --span --image --help" ;;
        esac
    fi
    COMPREPLY=($(compgen -W "$words" -- "$word"))
}
complete -o default -F _ir ir
