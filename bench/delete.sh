#!/bin/sh
# How long 'delete' of the last rule of a large file takes, from start to end, against 'cat' of the same file in the
# same run, and how much memory it takes at most: for 10,000 rules (about 1 MB) and for twice as many. The goal: twice
# the rules take at most 2.2 times the time. Build the program first (make). BEST_OF sets the runs of each (11).
set -eu
cd "$(dirname "$0")/.."
[ -x bin/buildozer ] || { echo "bench/delete.sh: bin/buildozer is not there: run make first" >&2; exit 1; }
folder=$(mktemp -d)
trap 'rm -rf "$folder"' EXIT

# A file of so many rules, without the layout, about a hundred bytes each.
rules() {
    awk -v count="$1" 'BEGIN {
        for (i = 1; i <= count; i++)
            printf "cc_library( name=\"r%d\",\n  srcs=[\"r%d.c\",\"r%d_more.c\"], hdrs = [ \"r%d.h\" ],\n  deps=[\":base\"])\n\n", i, i, i, i
    }'
}
rules 10000 > "$folder/10000"
rules 20000 > "$folder/20000"

python3 - "$folder" "${BEST_OF:-11}" <<'MEASURE'
import os, resource, sys, time

folder, best_of = sys.argv[1], int(sys.argv[2])


def run(words, name):
    """Seconds, and the peak memory in KiB, of one run with a file as its standard input."""
    start = time.perf_counter()
    child = os.fork()
    if child == 0:
        os.dup2(os.open(name, os.O_RDONLY), 0)
        os.dup2(os.open(os.devnull, os.O_WRONLY), 1)
        os.execvp(words[0], words)
    _, status, used = os.wait4(child, 0)
    seconds = time.perf_counter() - start
    if status != 0:
        sys.exit("%s on %s ended with the wait status %d" % (words[0], name, status))
    return seconds, used.ru_maxrss


def best(words, name):
    runs = [run(words, name) for _ in range(best_of)]
    return min(seconds for seconds, _ in runs), max(memory for _, memory in runs)


times = []
for count in (10000, 20000):
    name = os.path.join(folder, str(count))
    size = os.path.getsize(name)
    seconds, memory = best(["bin/buildozer", "--", "delete", "-:r%d" % count], name)
    plain, _ = best(["cat"], name)
    times.append(seconds)
    print("%d rules, %d bytes: delete %.4f s, cat %.4f s, %.1f times; peak %d KiB, %.1f bytes a byte of text"
          % (count, size, seconds, plain, seconds / plain, memory, memory * 1024 / size))
ratio = times[1] / times[0]
print("twice the rules: %.2f times the time (goal: at most 2.2, on an idle machine)" % ratio)
MEASURE
