# Completions for bash of vardozek, written by .ci/words.
_vardozek() {
    local word=${COMP_WORDS[COMP_CWORD]} before=${COMP_WORDS[COMP_CWORD-1]}
    if [ "$COMP_CWORD" -eq 1 ]; then
        COMPREPLY=($(compgen -W "run view trace gdb sh hunt help --help --version" -- "$word"))
        return
    fi
    case ${COMP_WORDS[1]}:$before in
        help:*) COMPREPLY=($(compgen -W "run view trace gdb sh hunt" -- "$word")); return ;;
        run:--cpus) COMPREPLY=(); return ;;
        run:--ram) COMPREPLY=(); return ;;
        run:--watchdog) COMPREPLY=(); return ;;
        run:--ticks) COMPREPLY=(); return ;;
        run:--lines) COMPREPLY=(); return ;;
        run:--seed) COMPREPLY=(); return ;;
        view:--cpus) COMPREPLY=(); return ;;
        view:--ram) COMPREPLY=(); return ;;
        view:--watchdog) COMPREPLY=(); return ;;
        view:--ticks) COMPREPLY=(); return ;;
        view:--lines) COMPREPLY=(); return ;;
        view:--seed) COMPREPLY=(); return ;;
        trace:--clock) COMPREPLY=($(compgen -W "events steps ticks" -- "$word")); return ;;
        trace:--cpus) COMPREPLY=(); return ;;
        trace:--ram) COMPREPLY=(); return ;;
        trace:--watchdog) COMPREPLY=(); return ;;
        trace:--ticks) COMPREPLY=(); return ;;
        trace:--lines) COMPREPLY=(); return ;;
        trace:--seed) COMPREPLY=(); return ;;
        hunt:--pct) COMPREPLY=(); return ;;
        hunt:--ticks) COMPREPLY=(); return ;;
        hunt:--raises) COMPREPLY=(); return ;;
        hunt:--states) COMPREPLY=(); return ;;
        hunt:--cpus) COMPREPLY=(); return ;;
        hunt:--ram) COMPREPLY=(); return ;;
        hunt:--watchdog) COMPREPLY=(); return ;;
        hunt:--events) COMPREPLY=(); return ;;
        hunt:--runs) COMPREPLY=(); return ;;
        hunt:--seeds) COMPREPLY=(); return ;;
        hunt:--lines) COMPREPLY=(); return ;;
        hunt:--fail) COMPREPLY=($(compgen -W "ebreak fault deadlock notice notice-1 notice-2 notice-3 notice-4 notice-5 abandoned demotion overrun lost stuck" -- "$word")); return ;;
        hunt:--errno) COMPREPLY=($(compgen -W "eperm esrch eagain enomem ebusy einval edeadlk enosys etimedout" -- "$word")); return ;;
        hunt:--held) COMPREPLY=(); return ;;
        hunt:--inversion) COMPREPLY=(); return ;;
        hunt:--stuck) COMPREPLY=(); return ;;
    esac
    case ${COMP_WORDS[1]}:$word in
        run:-*) COMPREPLY=($(compgen -W "--cpus --ram --watchdog --ticks --lines --seed --until --script --journal --map --help" -- "$word")) ;;
        view:-*) COMPREPLY=($(compgen -W "--from --to --text --mutexes --beside --map --run --cpus --ram --watchdog --ticks --lines --seed --until --script --help" -- "$word")) ;;
        trace:-*) COMPREPLY=($(compgen -W "--clock --map --run --cpus --ram --watchdog --ticks --lines --seed --until --script --help" -- "$word")) ;;
        gdb:-*) COMPREPLY=($(compgen -W "--map --help" -- "$word")) ;;
        sh:-*) COMPREPLY=($(compgen -W "--script --journal --junit --map --help" -- "$word")) ;;
        hunt:-*) COMPREPLY=($(compgen -W "--random --pct --all --ticks --raises --states --cpus --ram --watchdog --events --runs --time --seeds --lines --fail --errno --order --out --junit --map --held --inversion --stuck --help" -- "$word")) ;;
        view:*) COMPREPLY=($(compgen -W "diff" -- "$word") $(compgen -f -- "$word")) ;;
        *) COMPREPLY=($(compgen -f -- "$word")) ;;
    esac
}
complete -o filenames -F _vardozek vardozek
