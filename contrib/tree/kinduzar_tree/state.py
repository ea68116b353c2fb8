"""Where is kept what a later run needs: the folder of this working tree in .git, or one that is named."""
import contextlib
import errno
import os

from . import git

FOLDER = "kinduzar"
REST = "rest"


class Unreadable(Exception):
    """What is kept cannot be read or written; the text says which file, and why."""


def folder_for(place, named=None):
    """The folder, by its absolute path: the one that is named, else the one in the .git of this place; None where there is none."""
    if named is not None:
        return os.path.abspath(named)
    return (own := git.own_folder(place)) and os.path.join(own, FOLDER)


def make_folder(folder):
    """Makes a folder, in that of this program. A link in the place of one of both, but for one that is named, would lead where nobody means it."""
    above = os.path.dirname(folder)
    for each in [above] * (os.path.basename(above) == FOLDER) + [folder]:
        if os.path.islink(each):
            raise OSError(errno.ELOOP, "it is a link", each)
    os.makedirs(folder, exist_ok=True)


def write_whole(file, content):
    """Replaces a file whole: whoever reads it, also after a crash, finds one of both."""
    import tempfile  # here, as reading it would slow every run

    folder = os.path.dirname(file)
    make_folder(folder)
    handle, new = tempfile.mkstemp(prefix=".new-", dir=folder)
    try:
        with os.fdopen(handle, "wb") as written:
            written.write(content)
            written.flush()
            os.fsync(written.fileno())
        os.replace(new, file)
    except BaseException:
        os.unlink(new)
        raise
    handle = os.open(folder, os.O_RDONLY)
    with contextlib.suppress(OSError):  # not each file system has that of a folder
        os.fsync(handle)
    os.close(handle)


def keep(place, content, named=None):
    """Keeps the rest of a run, and gives the name of the file, from the working directory; None where there is no place for it."""
    folder = folder_for(place, named)
    if folder is None:
        return None
    file = os.path.join(folder, REST)
    try:
        write_whole(file, content)
    except OSError:
        return None
    return min(os.path.relpath(file), file, key=len)
