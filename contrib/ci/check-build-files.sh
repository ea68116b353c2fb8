#!/bin/sh
# Checks that the BUILD files of a git repository are formatted, with WORKSPACE, MODULE.bazel and *.BUILD; no file is changed.
#
#     check-build-files.sh [COMMIT] [-- PATHSPEC..]
#
# It is called in the folder whose files are to be checked, with all below it. With a COMMIT only those that differ from it are
# checked, with A...B those that differ between B and where it left A; a PATHSPEC such as ':!third_party' leaves a folder out.
# With BUILDIFIER_BZL=yes in the environment .bzl files are checked too. buildifier-tree, which must be on the PATH, checks them, and its
# status is that of this script: 0 where all are formatted, 4 where one is not, 1 where one is no text that buildifier reads, 3 where one
# could not be read, of several the first of 3, 1 and 4; and 2 where the check could not be made at all.
command -v buildifier-tree > /dev/null || { echo "check-build-files: buildifier-tree is not on the PATH" >&2; exit 2; }
folder=$(mktemp -d) || exit 2
trap 'rm -rf "$folder"' EXIT
names='(^|/)((BUILD|WORKSPACE)(\.bazel)?|WORKSPACE\.bzlmod|REPO\.bazel|([^/]*\.)?MODULE\.bazel|[^/]*\.BUILD(\.bazel)?)$'
[ -z "$BUILDIFIER_BZL" ] || names="$names|\.bzl$"
commit=
if [ $# -gt 0 ] && [ "$1" != -- ]; then commit=$1; shift; fi
[ $# -eq 0 ] || shift
if [ -n "$commit" ]; then
    git diff -z --name-only --relative --diff-filter=d "$commit" -- "$@" > "$folder/all" || exit 2
else
    git ls-files -z -- "$@" > "$folder/all" || exit 2
fi
grep -zE "$names" "$folder/all" > "$folder/names"
[ $? -le 1 ] || exit 2
buildifier-tree --mode=check --quiet --from="$folder/names"
