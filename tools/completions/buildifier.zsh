#compdef @NAME@
# Completion of @NAME@'s words in zsh. Made by tools/completions.py from @PAGE@.

_arguments -S \
    '--mode=[what is done with a file that differs]:mode:(@MODES@)' \
    '--type=[what the files are]:type:(@TYPES@)' \
@OPTIONS@
    '*:@OPERAND@:_files'
