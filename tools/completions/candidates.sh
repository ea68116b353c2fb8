# What an operand of buildozer may become: each text on a line, and after a tab what it is. A text that ends with a space, a
# colon or a slash goes on.
#   candidates PROGRAM OPERAND
set -f
program=$1 operand=$2
newline='
'
# each command: its name, what may be at each place after it, and how docs/buildozer.md writes it. A '+' is where a further word
# is needed, a word and '>' where something may be after that word alone.
commands='@COMMANDS@'
attributes='@ATTRIBUTES@'
label_attributes='@LABEL_ATTRIBUTES@'
fields='@FIELDS@'
which='@WHICH@'

# offer TEXT [WHAT IT IS]: a text that begins with what is there; a target has no space
offer() {
    case $operand/$1 in
    *' '*/*) ;;
    *' '?*) return ;;
    esac
    case $1 in
    "$operand"*) printf '%s\t%s\n' "$1" "${2-}" ;;
    esac
}

# told FIELD PACKAGE: what the program prints of each rule there, once each
told() {
    "$program" "print $1" "//$2:all" < /dev/null 2> /dev/null | sort -u | while IFS= read -r text; do
        [ "$text" = '(missing)' ] || printf '%s\n' "$text"
    done
}

# escaped: the lines of its input, each as one word of a command
escaped() {
    sed 's/ /\\ /g'
}

# offer_lines FRONT BEHIND: each line of its input between both
offer_lines() {
    while IFS= read -r line; do
        offer "$1$line$2"
    done
}

# folders FRONT PATH: packages in the folder where the path is, and folders with folders below them
folders() {
    case $2 in
    */*) folder=${2%/*}/ ;;
    *) folder= ;;
    esac
    set +f
    set -- "$1" "./$folder"*/
    set -f
    front=$1
    shift
    for below; do
        below=${below%/}
        name=${below#./}
        case $name in
        *' '* | *:* | *'*') continue ;;
        esac
        if [ -f "$below/BUILD.bazel" ] || [ -f "$below/BUILD" ]; then
            offer "$front$name:" package
        fi
        if [ -n "$(find -H "$below" -mindepth 1 -maxdepth 1 -type d 2> /dev/null | head -n 1)" ]; then
            offer "$front$name/" folder
        fi
    done
}

# label FRONT TEXT: the labels of rules that the text after the front may become
label() {
    case $2 in
    -:*) ;;
    *:*) package=${2%%:*} && told name "${package#//}" | escaped | offer_lines "$1$package:" '' ;;
    //*)
        if [ -f BUILD.bazel ] || [ -f BUILD ]; then
            offer "$1//:" package
        fi
        folders "$1//" "${2#//}"
        ;;
    *)
        told name '' | escaped | offer_lines "$1:" ''
        offer "$1//"
        ;;
    esac
}

# target: the targets that the operand may become: rules, kinds, and what means several rules
target() {
    label '' "$operand"
    case $operand in
    *:*)
        package=${operand%%:*}:
        for word in $which; do
            offer "$package$word"
        done
        case $operand in
        -:*) ;;
        *:%*) name=${package%:} && told kind "${name#//}" | offer_lines "$package%" '' ;;
        esac
        ;;
    esac
}

# name: the commands that the operand may become, and the beginning of a target
name() {
    printf '%s\n' "$commands" | while IFS=';' read -r command places form; do
        case $command in
        ?*+) offer "${command%+} " "$form" ;;
        ?*) offer "$command" "$form" ;;
        esac
    done
    offer //
}

# word FRONT TEXT PLACE ATTRIBUTE WORD: what may be at a place of a command, after what is before it, which ends with a word
word() {
    for kind in $(printf '%s' "$3" | tr '|' ' '); do
        case $kind in
        "$5>"*) kind=${kind#*>} ;;
        *'>'*) continue ;;
        esac
        case $kind in
        *+) after=' ' kind=${kind%+} ;;
        *) after= ;;
        esac
        case $kind in
        -) ;;
        ATTR) printf '%s\n' $attributes | offer_lines "$1" "$after" ;;
        KIND) told kind '' | offer_lines "$1" "$after" ;;
        RULE) told name '' | escaped | offer_lines "$1" "$after" ;;
        FIELD) printf '%s\n' $fields $attributes | offer_lines "$1" "$after" ;;
        LABEL)
            case " $label_attributes * " in
            *" $4 "*) label "$1" "$2" ;;
            esac
            ;;
        *) offer "$1$kind$after" ;;
        esac
    done
}

# place_of NAME COUNT: what may be after that many words of a command
place_of() {
    printf '%s\n' "$commands" | while IFS=';' read -r command places form; do
        [ "${command%+}" = "$1" ] || continue
        count=$2
        for place in $places; do
            case "$count $place" in
            '1 '* | *..) printf '%s' "${place%..}" && break ;;
            esac
            count=$((count - 1))
        done
    done
}

# words: what the last word of the operand may become, where a command and a space are before it
words() {
    front='' word='' count=0 command='' attribute='' before='' rest=$operand
    while :; do
        case $rest in
        *' '*) piece=${rest%%' '*} rest=${rest#*' '} ;;
        *) break ;;
        esac
        word=$word$piece
        case $piece in
        *\\) word="$word " && continue ;;
        esac
        if [ -n "$word" ]; then
            count=$((count + 1)) before=$word
            case $count in
            1) command=$word ;;
            2) attribute=$word ;;
            esac
        fi
        front="$front$word " word=''
    done
    word "$front" "$word$rest" "$(place_of "$command" "$count")" "$attribute" "$before"
}

case $operand in
*"$newline"*) ;;
*' '*) words ;;
//* | *:*) target ;;
*) name ;;
esac
