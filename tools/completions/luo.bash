# bash completions of luo: source this file.

# _luo_names PROGRAM FILE KIND: the types or procedures of a file, as the program reads it
_luo_names() {
    case $3 in
        procedure) "$1" format "$2" 2> /dev/null | sed -n 's/^procedure \([A-Za-z0-9_]*\)(.*/\1/p' ;;
        type) "$1" format "$2" 2> /dev/null | sed -n 's/^type \([A-Za-z0-9_, ]*\) =.*/\1/p' | tr -d ' ' | tr ',' '\n' ;;
    esac
}

_luo() {
    local word=${COMP_WORDS[COMP_CWORD]} program=${COMP_WORDS[0]} command=${COMP_WORDS[1]} file=${COMP_WORDS[2]} words=
    COMPREPLY=()
    case $COMP_CWORD,$command in
        1,*) words='analyse format run list audit sample' ;;
        2,sample) return ;;
        2,*) mapfile -t COMPREPLY < <(compgen -d -S / -- "$word"; compgen -f -X '!*.adl' -- "$word"); return ;;
        3,run) words=$(_luo_names "$program" "$file" procedure) ;;
        3,list) words=$(_luo_names "$program" "$file" type) ;;
    esac
    mapfile -t COMPREPLY < <(compgen -W "$words" -- "$word")
}
complete -F _luo luo
