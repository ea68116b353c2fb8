"""The module extension that takes the two built programs from the machine, for MODULE.bazel."""

load(":programs.bzl", "kinduzar_programs")

def _programs(module_ctx):
    """Makes the repository from the paths that the root module names; those of other modules are of other machines."""
    buildifier = ""
    buildozer = ""
    for module in module_ctx.modules:
        if module.is_root:
            for paths in module.tags.local:
                buildifier = paths.buildifier or buildifier
                buildozer = paths.buildozer or buildozer
    kinduzar_programs(
        name = "kinduzar_programs",
        buildifier = buildifier,
        buildozer = buildozer,
    )

programs = module_extension(
    implementation = _programs,
    doc = "The repository kinduzar_programs, with the programs as its files buildifier and buildozer.",
    tag_classes = {
        "local": tag_class(
            attrs = {
                "buildifier": attr.string(doc = "The absolute path of buildifier; without it the one on the PATH is taken."),
                "buildozer": attr.string(doc = "The absolute path of buildozer; without it the one on the PATH is taken."),
            },
            doc = "Where the programs are on this machine.",
        ),
    },
)
