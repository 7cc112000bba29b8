# Completion of flamekit for bash: source this file, as in ~/.bashrc.
_flamekit() {
    local word=${COMP_WORDS[COMP_CWORD]} command=${COMP_WORDS[1]} options
    if [ "$COMP_CWORD" -eq 1 ]; then
        mapfile -t COMPREPLY < <(compgen -W "table agents plot view sweep population lint explain dot from-xmml from-0xml --help --version" -- "$word")
        return
    fi
    if [[ $word == -* ]]; then
        # The options as the command itself tells them.
        options=$("${COMP_WORDS[0]}" "$command" --help 2>/dev/null | grep -oE -- '(^|[ ,[])--?[a-z0-9-]+' | grep -oE -- '--?[a-z0-9-]+' | sort -u)
        mapfile -t COMPREPLY < <(compgen -W "$options" -- "$word")
        return
    fi
    mapfile -t COMPREPLY < <(compgen -f -- "$word")
}
complete -o filenames -F _flamekit flamekit
