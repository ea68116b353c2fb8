#!/bin/sh
# Runs buildozer or buildifier with the options of bazelbuild's programs of these names, which take one dash or two.
#
#     compat.sh buildozer|buildifier WORD..
#
# -path gives the type of a file by its name, -root_dir the folder to run in; -r and -d of buildifier, and -types and targets with ... of
# buildozer are done by buildifier-tree and buildozer-tree, which must be on the PATH then. An option that cannot be done here is named on standard
# error and nothing is run (status 1 of buildozer, 2 of buildifier); docs/COMING.md says what to do in its place. The profile of buildozer is
# bazelbuild's.
program=$1 count=$(($# - 1)) root=. type='' by_path='' tree='' diff=''
case $program in buildozer) usage=1 ;; buildifier) usage=2 ;; *) echo "compat.sh: no program: $program" >&2; exit 2 ;; esac
shift
while [ "$count" -gt 0 ]; do
    case $1 in -- | - | '' | [!-]*) break ;; esac
    option=${1#-} option=${option#-} count=$((count - 1))
    shift
    case $program:$option in buildozer:f | buildozer:root_dir | buildozer:numio | buildozer:P | buildozer:types | buildifier:mode | buildifier:type | buildifier:path)
        [ "$count" -gt 0 ] || { echo "compat.sh: $program: -$option has no value" >&2; exit "$usage"; }
        option="$option=$1" count=$((count - 1))
        shift ;;
    esac
    case $program:${option%=true} in
        buildozer:k) set -- "$@" -k ;;
        buildozer:stdout | buildozer:quiet | buildozer:journal | *:help | *:version) set -- "$@" "--${option%=true}" ;;
        buildozer:f=[!/-]*) set -- "$@" -f "$PWD/${option#f=}" ;;
        buildozer:f=*) set -- "$@" -f "${option#f=}" ;;
        buildozer:root_dir=*) root=${option#root_dir=} ;;
        buildozer:numio=* | buildozer:P=* | buildozer:shorten_labels | buildozer:delete_with_comments | buildozer:eol-comments=false | buildifier:lint=off) ;;
        buildozer:types=*) set -- "$@" "--$option"; tree=-tree ;;
        buildifier:r) tree=-tree ;;
        buildifier:d | buildifier:mode=diff) set -- "$@" --mode=diff; tree=-tree diff=yes ;;
        buildifier:mode=*) set -- "$@" "--$option" ;;
        buildifier:type=workspace | buildifier:type=module) type=build ;;
        buildifier:type=default) type=bzl ;;
        buildifier:type=*) type=${option#type=} ;;
        buildifier:path=*.bzl) by_path=bzl ;;
        buildifier:path=*) by_path=build ;;
        *) echo "compat.sh: $program has no -$option here" >&2; exit "$usage" ;;
    esac
done
[ "${type:-auto}" != auto ] || type=$by_path
[ -z "$type" ] || set -- "$@" "--type=$type"
[ "$count" -eq 0 ] || [ "$1" != -- ] || { count=$((count - 1)); shift; }
[ -z "$diff" ] || [ "$count" -gt 0 ] || { echo "compat.sh: buildifier has no -d of standard input here" >&2; exit "$usage"; }
[ "$program" = buildifier ] || set -- "$@" --profile=bazelbuild
# what is left are the operands, which go after the options
set -- "$@" --
while [ "$count" -gt 0 ]; do
    case $program:$1 in *' '*) ;; buildozer:...:* | buildozer:*/...:* | buildozer:*/...) tree=-tree ;; esac
    set -- "$@" "$1"
    shift
    count=$((count - 1))
done
cd "$root" && exec "$program$tree" "$@"
