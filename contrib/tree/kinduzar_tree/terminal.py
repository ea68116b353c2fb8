"""What is written: lines, a bar of progress where standard error is a terminal, and colours where standard output is one."""
import os
import select
import sys
import time

BAR = 24
# seconds between two pictures of the bar
PAUSE = 0.1
COLOURS = {b"+": b"\x1b[32m", b"-": b"\x1b[31m", b"@": b"\x1b[36m"}
BOLD, PLAIN = b"\x1b[1m", b"\x1b[0m"
OUT, ERR = 1, 2
# control characters, and bytes that are not UTF-8, as both programs print the first of these
ESCAPES = {
    **{code: f"\\x{code:02x}" for code in [*range(32), 127]}, **{code: f"\\u{{{code:02x}}}" for code in range(128, 160)},
    **{0xDC00 + code: f"\\x{code:02x}" for code in range(128, 256)}, 9: "\\t", 10: "\\n", 13: "\\r",
}  # fmt: skip


def shown(text):
    """A text as a part of a line, which it cannot end, nor move the terminal."""
    return text.translate(ESCAPES)


def counted(number, thing):
    """'1 file', '2,491 files'."""
    return f"{number:,} {thing}{'' if number == 1 else 's'}"


def command_line(words):
    """Words as a shell reads them."""
    return " ".join(map(quoted, words))


def quoted(word):
    """A word as a shell reads it; where it has control characters, as bash, zsh and fewer others do."""
    import shlex  # here, as reading it would slow every run

    if shown(word) == word:
        return shlex.quote(word)
    return "$'" + "".join(chr(byte) if 32 <= byte < 127 and byte not in b"'\\" else f"\\{byte:03o}" for byte in os.fsencode(word)) + "'"


class Screen:
    """Both outputs. What is on standard output may be read by a program, all else goes to standard error."""

    def __init__(self):
        # one of the three that is closed becomes what is empty or cannot be written, so that no file gets its number
        for place, flags in enumerate((os.O_RDONLY, os.O_RDONLY, os.O_WRONLY)):
            try:
                os.fstat(place)
            except OSError:
                os.open(os.devnull, flags)
        can_move = os.environ.get("TERM") not in (None, "", "dumb")
        self.has_bar = can_move and os.isatty(ERR)
        self.has_colours = can_move and os.isatty(OUT) and not os.environ.get("NO_COLOR")
        self.full, self.empty = "█░" if "UTF-8" in (getattr(sys.stderr, "encoding", None) or "").upper() else "#."
        self.bar = b""
        self.last = 0.0
        self.is_broken = False

    def progress(self, done, all_of_them, thing):
        """Shows how far the run is, below all lines."""
        now = time.monotonic()
        if not self.has_bar or (now - self.last < PAUSE and done < all_of_them):
            return
        full = BAR * done // max(all_of_them, 1)
        self.last, self.bar = now, f"{self.full * full}{self.empty * (BAR - full)} {done:,}/{counted(all_of_them, thing)}".encode()
        self.write(ERR, b"\r" + self.bar + b"\x1b[K")

    def clear(self):
        if self.bar:
            self.write(ERR, b"\r\x1b[K")
            self.bar = b""

    def say(self, text):
        """Writes a line to standard error; where that is closed there is nobody to tell."""
        self.write(ERR, self.bar and b"\r\x1b[K")
        self.write(ERR, shown(text).encode(errors="backslashreplace") + b"\n" + self.bar)

    def put(self, content):
        """Writes bytes to standard output; `is_broken` says that they couldn't be written."""
        if content and not self.is_broken:
            self.write(ERR, self.bar and b"\r\x1b[K")
            self.is_broken = not self.write(OUT, content)
            self.write(ERR, self.bar)

    def write(self, place, content):
        rest = memoryview(content)
        while rest:
            try:
                rest = rest[os.write(place, rest) :]
            except BlockingIOError:
                select.select([], [place], [])
            except OSError:
                return False
        return True

    def coloured(self, lines):
        """The lines of a difference, with colours on a terminal."""
        if not self.has_colours:
            return b"".join(lines)
        return b"".join(self.coloured_line(line) for line in lines)

    def coloured_line(self, line):
        colour = BOLD if line.startswith((b"--- ", b"+++ ")) else COLOURS.get(line[:1])
        return colour + line.rstrip(b"\n") + PLAIN + b"\n" if colour else line
