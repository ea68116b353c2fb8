"""What buildifier-tree and buildozer-tree share: they find the files of a tree and run buildifier and buildozer on them, many at once."""
