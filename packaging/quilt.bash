# Completion for bash: the three modes, files for FILE, and the option.
# shellcheck shell=bash
_quilt() {
    local current=${COMP_WORDS[COMP_CWORD]} before=${COMP_WORDS[COMP_CWORD - 1]} word mode='' seen=0 at
    COMPREPLY=()
    for ((at = 1; at < COMP_CWORD; at++)); do
        word=${COMP_WORDS[at]}
        case $word in
        --pool) at=$((at + 1)) ;;
        -*) ;;
        *)
            mode=${mode:-$word}
            seen=$((seen + 1))
            ;;
        esac
    done
    if [ "$before" = --pool ]; then
        mapfile -t COMPREPLY < <(compgen -W '8 64 256 1024 4096' -- "$current")
    elif [[ $current == -* && $mode != new ]]; then
        mapfile -t COMPREPLY < <(compgen -W '--pool --help' -- "$current")
    elif [ "$seen" -eq 0 ]; then
        mapfile -t COMPREPLY < <(compgen -W 'new run trial' -- "$current")
    elif [ "$seen" -eq 1 ]; then
        compopt -o filenames
        mapfile -t COMPREPLY < <(compgen -f -- "$current")
    elif [ "$mode" = new ] && [ "$seen" -eq 3 ]; then
        mapfile -t COMPREPLY < <(compgen -W '1 2 3 4 5 6 7 8 9 10 11 12' -- "$current")
    fi
}
complete -F _quilt quilt
