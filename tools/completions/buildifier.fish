# Completion of @NAME@'s words in fish. Made by tools/completions.py from @PAGE@.

complete -c @NAME@ -l mode -x -a '@MODES@' -d 'what is done with a file that differs'
complete -c @NAME@ -l type -x -a '@TYPES@' -d 'what the files are'
@OPTIONS@
