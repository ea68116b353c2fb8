# Completion of @NAME@'s words in fish. Made by tools/completions.py from @PAGE@.

set -g __buildozer_script '@CANDIDATES@'

# The word at the cursor without quotation marks, of which the last one may be open.
function __@NAME@_operand
    set -l token (commandline -ct)
    for closing in '' "'" '"'
        string unescape -- "$token$closing" 2> /dev/null
        and return
    end
    echo
end

# Behind a single text that goes on fish would close its quotation marks, so there a second one is shown.
function __@NAME@_operands
    set -l program (string replace -r '^~' $HOME -- (commandline -opc)[1])
    set -l texts (sh -c "$__buildozer_script" sh $program (__@NAME@_operand))
    if test (count $texts) = 1; and string match -qr '[ :/]\t' -- $texts
        set -a texts (string replace \t ..\t -- $texts)
    end
    printf '%s\n' $texts
end

# Beside -f there are no operands.
function __@NAME@_has_file
    contains -- -f (commandline -opc)
end

complete -c @NAME@ -f
complete -c @NAME@ -n 'not __@NAME@_has_file' -a '(__@NAME@_operands)'
@OPTIONS@
