# Completion of @NAME@'s words in bash. Made by tools/completions.py from @PAGE@.

_@NAME@() {
    local line=${COMP_LINE:0:COMP_POINT} front=''
    COMPREPLY=()
    if [[ $line != *' -- '* && $line =~ [[:blank:]](--(mode|type)[=[:blank:]])([^[:blank:]]*)$ ]]; then
        [[ ${BASH_REMATCH[1]} == *= && $COMP_WORDBREAKS != *=* ]] && front=--${BASH_REMATCH[2]}=
        local words='@MODES@'
        [[ ${BASH_REMATCH[2]} == type ]] && words='@TYPES@'
        mapfile -t COMPREPLY < <(compgen -P "$front" -W "$words" -- "${BASH_REMATCH[3]}")
    elif [[ $line != *' -- '* && $2 == -* ]]; then
        mapfile -t COMPREPLY < <(compgen -W '--mode= --type= @OPTIONS@' -- "$2")
        [[ ${#COMPREPLY[@]} == 1 && ${COMPREPLY[0]} == *= ]] && compopt -o nospace 2> /dev/null
    else
        compopt -o default 2> /dev/null
    fi
}

complete -F _@NAME@ @NAME@
