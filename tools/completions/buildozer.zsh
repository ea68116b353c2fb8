#compdef @NAME@
# Completion of @NAME@'s words in zsh. Made by tools/completions.py from @PAGE@.

_@NAME@_candidates() {
    sh -s -- "$@" << 'END'
@CANDIDATES@
END
}

# The texts that go on, after which no space comes, apart from the others, each with what it is.
_@NAME@_operand() {
    local line text told operand=$PREFIX program=${(Q)words[1]}
    local -a going going_told whole whole_told
    [[ -z ${compstate[quote]} ]] && operand=${(Q)PREFIX}
    for line in "${(@f)$(_@NAME@_candidates "${program/#\~/$HOME}" "$operand")}"; do
        text=${line%%$'\t'*} told=${line#*$'\t'}
        [[ -n $text ]] || continue
        told=$text${told:+  -- $told}
        if [[ $text == *[\ :/] ]]; then
            going+=("$text") going_told+=("$told")
        else
            whole+=("$text") whole_told+=("$told")
        fi
    done
    (( $#going )) && compadd -S '' -l -d going_told -a going
    (( $#whole )) && compadd -l -d whole_told -a whole
    (( $#going || $#whole ))
}

_arguments -S \
@OPTIONS@
    '(-f)*:operand:_@NAME@_operand'
