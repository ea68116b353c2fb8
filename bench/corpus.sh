#!/bin/sh
# Reads each BUILD, WORKSPACE and MODULE.bazel file below a folder and spells it back: bench/corpus.sh FOLDER. Prints the
# names of those that were refused or came back with other bytes, and how many did not; the status is 1 where any did.
# A name may have another before or after it, as in zlib.BUILD or BUILD.tools. Files past 64 MiB are left out, since no text is
# longer. Build the program first (make bin/cases).
set -eu
folder=${1:?"FOLDER is missing: bench/corpus.sh FOLDER"}
program=$(dirname "$0")/../bin/cases
[ -x "$program" ] || { echo "bench/corpus.sh: bin/cases is not there: run make bin/cases first" >&2; exit 1; }
scratch=$(mktemp -d)
trap 'rm -rf "$scratch"' EXIT

find "$folder" -type f ! -size +67108864c \
    \( -name '*BUILD' -o -name '*BUILD.*' -o -name '*WORKSPACE*' -o -name '*MODULE.bazel' \) | sort > "$scratch/names"
accepted=0
others=0
while IFS= read -r name; do
    if ! "$program" spell < "$name" > "$scratch/spelled" 2> "$scratch/fault"; then
        echo "$name: $(cat "$scratch/fault")"
        others=$((others + 1))
    elif ! cmp -s "$name" "$scratch/spelled"; then
        echo "$name: spelled with other bytes"
        others=$((others + 1))
    else
        accepted=$((accepted + 1))
    fi
done < "$scratch/names"
echo "$accepted files accepted and spelled back, $others not"
[ "$others" = 0 ] && [ "$accepted" != 0 ]
