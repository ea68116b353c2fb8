"""The names of the files that Bazel reads, and where a workspace begins."""
import os

# the file of a package, of which the first that is there counts
BUILD_NAMES = ("BUILD.bazel", "BUILD")
# a folder that has one of these is the root of a workspace
ROOT_NAMES = ("MODULE.bazel", "REPO.bazel", "WORKSPACE", "WORKSPACE.bazel")
WHOLE_NAMES = {*BUILD_NAMES, *ROOT_NAMES, "WORKSPACE.bzlmod"}
ENDINGS = (".BUILD", ".BUILD.bazel", ".MODULE.bazel")


def is_formatted(name, with_bzl):
    """Whether buildifier-tree takes files of this name, where nothing else is said of it."""
    return name in WHOLE_NAMES or name.endswith(ENDINGS) or with_bzl and name.endswith(".bzl")


def is_text(name):
    """Whether a name of the system is UTF-8, as both programs need it."""
    return not any("\ud800" <= sign <= "\udfff" for sign in name)


def files_among(folder, names):
    """Those of these names that a folder has as files, or as links to some."""
    return [name for name in names if os.path.isfile(os.path.join(folder, name))]


def folders_above(folder):
    """A folder and those that it is in, the nearest first."""
    while True:
        yield folder
        above = os.path.dirname(folder)
        if above == folder:
            return
        folder = above


def is_own(folder, name):
    """Whether the user, or root, has put a file there, or the folder is inside of a repository of git of the user."""
    if os.lstat(os.path.join(folder, name)).st_uid in (0, os.geteuid()):
        return True
    found = next((above for above in folders_above(folder) if os.path.lexists(os.path.join(above, ".git"))), None)
    return found is not None and os.lstat(os.path.join(found, ".git")).st_uid == os.geteuid()


def root_above(folder, foreign):
    """The nearest root of a workspace at or above a folder; None where there is none. Another user's, above it, is none, and added to `foreign`."""
    for above in folders_above(folder):
        names = files_among(above, ROOT_NAMES)
        if names and (above == folder or any(is_own(above, name) for name in names)):
            return above
        foreign += [os.path.join(above, name) for name in names[:1]]
    return None


def build_file(folder):
    """The name of the file that makes a folder a package, as buildozer finds it; None where it is no package."""
    return next(iter(files_among(folder, BUILD_NAMES)), None)
