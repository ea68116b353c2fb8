"""Takes the two built programs, buildifier and buildozer, from the machine."""

_BUILD = """{head}package(default_visibility = ["//visibility:public"])

{programs}
"""

_LOAD = """load(":missing.bzl", "missing_program")

"""

def _found(repository_ctx, name):
    """Gives the path of a program: the one that was given, which must be there, else the one on the PATH, or None."""
    given = getattr(repository_ctx.attr, name)
    if not given:
        return repository_ctx.which(name)
    path = repository_ctx.path(given)
    if not path.exists:
        fail("{} = \"{}\": there is no such file".format(name, given))
    return path

def _programs(repository_ctx):
    """Links each program; one that is not there gets a target that says so where it is built."""
    lines = []
    missing = False
    for name in ["buildifier", "buildozer"]:
        path = _found(repository_ctx, name)
        if path:
            repository_ctx.symlink(path, name)
            lines.append("exports_files([\"{}\"])".format(name))
        else:
            missing = True
            lines.append("missing_program(name = \"{}\")".format(name))
    if missing:
        repository_ctx.symlink(Label("//:missing.bzl"), "missing.bzl")
    text = _BUILD.format(head = _LOAD if missing else "", programs = "\n\n".join(lines))
    repository_ctx.file("BUILD.bazel", text, executable = False)

kinduzar_programs = repository_rule(
    implementation = _programs,
    attrs = {
        "buildifier": attr.string(doc = "The absolute path of buildifier; without it the one on the PATH is taken."),
        "buildozer": attr.string(doc = "The absolute path of buildozer; without it the one on the PATH is taken."),
    },
    doc = "A repository with the programs as its files buildifier and buildozer.",
    environ = ["PATH"],
    local = True,
)
