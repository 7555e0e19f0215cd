# Completions for bash of evltool, written by .ci/words.
_evltool() {
    local word=${COMP_WORDS[COMP_CWORD]} before=${COMP_WORDS[COMP_CWORD-1]}
    if [ "$COMP_CWORD" -eq 1 ]; then
        COMPREPLY=($(compgen -W "run replay threads asm help --help --version" -- "$word"))
        return
    fi
    case ${COMP_WORDS[1]}:$before in
        help:*) COMPREPLY=($(compgen -W "run replay threads asm" -- "$word")); return ;;
    esac
    case ${COMP_WORDS[1]}:$word in
        run:-*) COMPREPLY=($(compgen -W "--help" -- "$word")) ;;
        replay:-*) COMPREPLY=($(compgen -W "--help" -- "$word")) ;;
        threads:-*) COMPREPLY=($(compgen -W "--help" -- "$word")) ;;
        asm:-*) COMPREPLY=($(compgen -W "--help" -- "$word")) ;;
        *) COMPREPLY=($(compgen -f -- "$word")) ;;
    esac
}
complete -o filenames -F _evltool evltool
