# Completion of flame for bash: source this file, as in ~/.bashrc.
_flame() {
    local word=${COMP_WORDS[COMP_CWORD]} before=${COMP_WORDS[COMP_CWORD - 1]} options=
    if [ "$COMP_CWORD" -eq 1 ]; then
        mapfile -t COMPREPLY < <(compgen -W "run check graph code migrate trace replay trial --help --version" -- "$word")
        return
    fi
    case ${COMP_WORDS[1]} in
    run) options="--workers --fuel --sync --by --format" ;;
    trial) options="--workers --fuel --sync --by" ;;
    trace) options="--workers --fuel" ;;
    esac
    case " $options " in
    *" $before "*)
        case $before in
        --sync) mapfile -t COMPREPLY < <(compgen -W "layers flow nodes" -- "$word") ;;
        --format) mapfile -t COMPREPLY < <(compgen -W "1 2" -- "$word") ;;
        esac
        return
        ;;
    esac
    if [[ $word == --* ]]; then
        mapfile -t COMPREPLY < <(compgen -W "$options" -- "$word")
    elif [ "${COMP_WORDS[1]}" != trial ]; then
        mapfile -t COMPREPLY < <(compgen -f -- "$word")
    fi
}
complete -o filenames -F _flame flame
