# Completes the commands of station, the options that a program's --help lists, and files.
_station_programs() {
    local word=${COMP_WORDS[COMP_CWORD]} words=()
    if [[ ${1##*/} == station && $COMP_CWORD == 1 ]]; then
        words=(replay monitor serve)
    elif [[ ${1##*/} == station ]]; then
        words=("${COMP_WORDS[1]}")
    fi
    if [[ $word == -* ]]; then
        words=($("$1" "${words[@]}" --help 2>&1 | grep -oE -- '--[a-z][a-z-]*' | sort -u))
    elif ((COMP_CWORD > 1)); then
        words=()
    fi
    COMPREPLY=($(compgen -W "${words[*]}" -- "$word"))
}
complete -o default -F _station_programs station lbserver explain timeline track_signal
