# Completion of @NAME@'s words in bash. Made by tools/completions.py from @PAGE@.

_@NAME@_candidates() {
    sh -s -- "$@" << 'END'
@CANDIDATES@
END
}

# Cuts the text of a line into words: the last one to word, without its quotation marks, and as it is to raw; the mark that is
# open there to quote, and what is before it in that word to front; the other words to before.
_@NAME@_cut() {
    local rest=$1 sign
    word='' raw='' quote='' front='' before=()
    while [[ $rest ]]; do
        sign=${rest:0:1} rest=${rest:1} raw+=$sign
        if [[ $sign == "$quote" ]]; then
            quote=''
        elif [[ $sign == \\ && $quote != \' ]]; then
            if [[ $quote && ${rest:0:1} != [\\\"\$\`] ]]; then
                word+=$sign
            else
                word+=${rest:0:1} raw+=${rest:0:1} rest=${rest:1}
            fi
        elif [[ ! $quote && $sign == [\'\"] ]]; then
            quote=$sign front=$word
        elif [[ ! $quote && $sign == [[:blank:]] ]]; then
            [[ $raw == "$sign" ]] || before+=("$word")
            word='' raw=''
        else
            word+=$sign
        fi
    done
}

# The text by which readline replaces what it completes: inside quotation marks what is after the open one, else what is
# after the last sign that parts words.
_@NAME@_reply() {
    local text=$1 kept=''
    case $quote in
        \') text=${text#"$front"} REPLY=${text//\'/\'\\\'\'} ;;
        \") REPLY=$(printf '%s' "${text#"$front"}" | sed 's/[\\"$`]/\\&/g') ;;
        *)
            if [[ $text == *' '* && $word != *' '* ]]; then
                REPLY="'${text//\'/\'\\\'\'}"
                return
            fi
            [[ $word == *[:=]* && $COMP_WORDBREAKS == *:* ]] && printf -v kept %q "${word%"${word##*[:=]}"}"
            printf -v REPLY %q "$text"
            REPLY=${REPLY#"$kept"}
            ;;
    esac
}

_@NAME@() {
    local word raw quote front before text REPLY options=1 IFS=$' \t\n'
    COMPREPLY=()
    _@NAME@_cut "${COMP_LINE:0:COMP_POINT}"
    [[ " ${before[*]} " == *' -- '* ]] && options=''
    if [[ $options && ${before[${#before[@]} - 1]} == -f ]]; then
        compopt -o default 2> /dev/null
        return
    fi
    if [[ $options && $raw == -* ]]; then
        mapfile -t COMPREPLY < <(compgen -W '@OPTIONS@' -- "$word")
        [[ ${#COMPREPLY[@]} == 1 && ${COMPREPLY[0]} == *= ]] && compopt -o nospace 2> /dev/null
        return
    fi
    # beside -f there are no operands, and what is after closed quotation marks is no longer completed
    [[ $options && " ${before[*]} " == *' -f '* || ! $quote && $raw == *[\'\"]* ]] && return
    while IFS=$'\t' read -r text _; do
        _@NAME@_reply "$text"
        COMPREPLY+=("$REPLY")
    done < <(_@NAME@_candidates "${before[0]/#\~/$HOME}" "$word")
    # after a single text that goes on comes no space; readline leaves its quotation marks open only where there are two texts
    if [[ ${#COMPREPLY[@]} == 1 && $REPLY == *[\ :/] ]]; then
        compopt -o nospace 2> /dev/null
        [[ $quote ]] && COMPREPLY+=("$REPLY..")
    fi
}

complete -F _@NAME@ @NAME@
