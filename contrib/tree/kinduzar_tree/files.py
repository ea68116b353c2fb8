"""Files as others may have made them: regular ones alone are read, none is waited for, and none is read further than it may be long."""
import errno
import hashlib
import os
import stat
import time

# how many bytes a BUILD file may have, as both programs say, and any other file
MOST_TEXT, MOST_OTHER = 64 << 20, 16 << 20
PIECE = 1 << 20
# errors of the system that go by once a process has ended; how often it is tried again, and how long it is waited for in between
SCARCE, TRIES, PAUSE = (errno.EAGAIN, errno.ENOMEM, errno.EMFILE, errno.ENFILE), 40, 0.05
# the digest of a file that cannot be read
UNREAD = "unread"


def too_long(name, most):
    return OSError(errno.EFBIG, f"it has more than {most:,} bytes", name)


def opened(name, flags=0):
    """A file, opened without waiting for what may be at the other end of it; again and again while the system has no more places."""
    for left in reversed(range(TRIES)):
        try:
            return os.open(name, os.O_RDONLY | os.O_NONBLOCK | os.O_CLOEXEC | os.O_NOCTTY | flags)
        except OSError as error:
            if error.errno not in SCARCE or not left:
                raise
            time.sleep(PAUSE)


def pieces(name, most, flags=0):
    """Yields the bytes of a regular file. Raises OSError where it is none, is longer, or cannot be read."""
    place, left = opened(name, flags), most
    try:
        if not stat.S_ISREG(os.fstat(place).st_mode):
            raise OSError(errno.EINVAL, "it is no regular file", name)
        while piece := os.read(place, PIECE):
            left -= len(piece)
            if left < 0:
                raise too_long(name, most)
            yield piece
    finally:
        os.close(place)


def content(name, most=MOST_OTHER, flags=0):
    return b"".join(pieces(name, most, flags))


def digest_of(name):
    """The SHA-256 of a BUILD file, in hexadecimal digits; None where none is there, UNREAD where it cannot be read."""
    digest = hashlib.sha256()
    try:
        for piece in pieces(name, MOST_TEXT):
            digest.update(piece)
    except (FileNotFoundError, NotADirectoryError):
        return None
    except OSError:
        return UNREAD
    return digest.hexdigest()


def given(name):
    """What a user names to be read, a pipe too, or standard input for `-`; a pipe into which nobody writes is empty."""
    place = 0 if name == "-" else opened(name)
    if place:
        os.set_blocking(place, True)
    with open(place, "rb", closefd=place > 0) as file:
        text = file.read(MOST_OTHER + 1)
    if len(text) > MOST_OTHER:
        raise too_long(name, MOST_OTHER)
    return text
