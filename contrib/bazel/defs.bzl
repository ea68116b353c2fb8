"""Rules that check and format BUILD files by buildifier, and edit them by buildozer.

    buildifier_package_test  a test over the BUILD file of the package that calls it
    buildifier_test          a test over a list of files
    buildifier               `bazel run` formats the files of the source tree
    buildozer                `bazel run` edits them
"""

# How many files one run of buildifier takes in a test.
_BATCH = 1000

# The names of the files that are read as BUILD files, and those of .bzl files; patterns of find's -name.
_BUILD_FILES = ["BUILD", "BUILD.bazel", "WORKSPACE", "WORKSPACE.bazel", "MODULE.bazel", "*.BUILD"]
_BZL_FILES = ["*.bzl"]

_CHECK = """#!/bin/sh
# Ends with 0 where all files are formatted; each other one is named by a line `FILE # reformat`.
status=0
{runs}
exit $status
"""

_RUN = """{program} --mode=check -- {files} || status=$?"""

_FORMAT = """#!/bin/sh
# Formats the named files, which are below the folder of the call, else all BUILD files of the workspace.
program="$PWD/"{program}
mode=--mode={mode}
: "${{BUILD_WORKSPACE_DIRECTORY:?is not set, which bazel run does}}"
case "$1" in --mode=*) mode="$1"; shift ;; esac
if [ $# -gt 0 ]; then
    cd "$BUILD_WORKING_DIRECTORY" || exit 3
    exec "$program" "$mode" -- "$@"
fi
cd "$BUILD_WORKSPACE_DIRECTORY" || exit 3
exec find . -type d \\( -name .git{excluded} \\) -prune -o -type f \\( {names} \\) -exec "$program" "$mode" -- {{}} +
"""

_EDIT = """#!/bin/sh
# Edits the packages below the folder in which it runs.
program="$PWD/"{program}
: "${{BUILD_WORKSPACE_DIRECTORY:?is not set, which bazel run does}}"
cd "${directory}" || exit 2
exec "$program" "$@"
"""

def _quoted(word):
    """Gives a word as a shell takes it for just that word."""
    return "'" + word.replace("'", "'\\''") + "'"

def _program(text):
    """Gives the attribute that names a program, by which another one can be given."""
    return attr.label(
        allow_files = True,
        cfg = "target",
        default = Label(text),
        doc = "The program: a file, or a target that builds it.",
        executable = True,
    )

def _started(ctx, program, text, files = []):
    """Gives the provider of a rule whose script is started in its runfiles, among which are the program and the files."""
    script = ctx.actions.declare_file(ctx.label.name + ".sh")
    ctx.actions.write(script, text, is_executable = True)
    runfiles = ctx.runfiles(files = [getattr(ctx.executable, program)] + files)
    built = getattr(ctx.attr, program)[DefaultInfo].default_runfiles
    return [DefaultInfo(executable = script, runfiles = runfiles.merge(built) if built else runfiles)]

def _buildifier_test(ctx):
    program = _quoted("./" + ctx.executable.buildifier.short_path)
    files = [_quoted(file.short_path) for file in ctx.files.srcs]
    runs = [
        _RUN.format(program = program, files = " ".join(files[at:at + _BATCH]))
        for at in range(0, len(files), _BATCH)
    ]
    return _started(ctx, "buildifier", _CHECK.format(runs = "\n".join(runs)), ctx.files.srcs)

buildifier_test = rule(
    implementation = _buildifier_test,
    attrs = {
        "buildifier": _program("//:buildifier_program"),
        "srcs": attr.label_list(allow_empty = False, allow_files = True, doc = "The files that must be formatted.", mandatory = True),
    },
    doc = "Passes where all its files are formatted, and names each other one by a line `FILE # reformat`.",
    test = True,
)

def buildifier_package_test(name, **attributes):
    """Makes a buildifier_test over the file that Bazel reads for this package: BUILD.bazel, or else BUILD.

    Args:
      name: the name of the test.
      **attributes: further attributes of the test.
    """
    srcs = native.glob(["BUILD.bazel"], allow_empty = True) or ["BUILD"]
    buildifier_test(name = name, srcs = srcs, **dict({"size": "small"}, **attributes))

def _buildifier(ctx):
    excluded = "".join([" -o -path " + _quoted("./" + folder) for folder in ctx.attr.exclude])
    text = _FORMAT.format(
        program = _quoted(ctx.executable.buildifier.short_path),
        mode = ctx.attr.mode,
        excluded = excluded,
        names = " -o ".join(["-name " + _quoted(name) for name in ctx.attr.names + (_BZL_FILES if ctx.attr.bzl else [])]),
    )
    return _started(ctx, "buildifier", text)

buildifier = rule(
    implementation = _buildifier,
    attrs = {
        "buildifier": _program("//:buildifier_program"),
        "bzl": attr.bool(doc = "Whether .bzl files are taken too."),
        "exclude": attr.string_list(doc = "Folders, from the workspace's root, whose files are left out; a pattern of find's -path."),
        "mode": attr.string(default = "fix", values = ["fix", "check", "print_if_changed"]),
        "names": attr.string_list(allow_empty = False, default = _BUILD_FILES, doc = "The names of the files that are taken; patterns of find's -name."),
    },
    doc = "By bazel run: formats the source tree, or the files that are named after two dashes.",
    executable = True,
)

def _buildozer(ctx):
    directories = {"working": "BUILD_WORKING_DIRECTORY", "workspace": "BUILD_WORKSPACE_DIRECTORY"}
    text = _EDIT.format(
        program = _quoted(ctx.executable.buildozer.short_path),
        directory = directories[ctx.attr.directory],
    )
    return _started(ctx, "buildozer", text)

buildozer = rule(
    implementation = _buildozer,
    attrs = {
        "buildozer": _program("//:buildozer_program"),
        "directory": attr.string(
            default = "workspace",
            doc = "Where it runs: in the workspace's root, so that //pkg:name is Bazel's label, or in the folder of the call.",
            values = ["workspace", "working"],
        ),
    },
    doc = "By bazel run: applies the commands after two dashes to BUILD files of the source tree.",
    executable = True,
)
