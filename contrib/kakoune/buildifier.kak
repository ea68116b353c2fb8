# Formats BUILD files by buildifier when they are written, with WORKSPACE, MODULE.bazel and *.BUILD.
#
# Set up: source this file from kakrc. With `set-option global buildifier_bzl true` before a file is opened .bzl files are formatted
# too. A text that buildifier refuses is written as it is, and the refusal is in the buffer *debug*. Where a filter changes the only
# line of a buffer Kakoune leaves an empty line at the end, which is taken away.
declare-option -docstring 'whether .bzl files are formatted when they are written' bool buildifier_bzl false
define-command -hidden buildifier-on-write %{
    hook buffer BufWritePre .* %{
        try %{
            format-buffer
            execute-keys -draft gjgh<a-k>^\n<ret>d
        }
    }
}
hook global BufCreate (.*/)?((BUILD|WORKSPACE)(\.bazel)?|MODULE\.bazel|[^/]*\.BUILD) %{
    set-option buffer formatcmd 'buildifier --type=build'
    buildifier-on-write
}
hook global BufCreate .*\.bzl %{
    set-option buffer formatcmd 'buildifier --type=bzl'
    evaluate-commands %sh{ [ "$kak_opt_buildifier_bzl" != true ] || echo buildifier-on-write }
}
