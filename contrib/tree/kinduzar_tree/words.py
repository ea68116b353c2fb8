"""The words of a command line: options with two dashes, or one letter, anywhere among the operands, up to the word `--`."""


class Usage(Exception):
    """The words are none of this command; the text says why."""


def read(words, flags, valued, repeated=()):
    """The options, by their names with the dashes, and the operands. `flags` take no value, and have how often they are given, which is
    once but for those that may be repeated; `valued` take one, in the same word after `=` or in the next one; for an option of one letter, in the next one or in the same."""
    options, operands, rest = {}, [], list(words)
    while rest:
        word = rest.pop(0)
        if word == "--":
            return options, operands + rest
        if word == "-" or not word.startswith("-"):
            operands.append(word)
            continue
        name, value, more = split(word)
        if name in options and name not in repeated:
            raise Usage(f"{name} is given twice")
        if name in flags:
            if value is not None:
                raise Usage(f"{name} has no value")
            options[name] = options.get(name, 0) + 1
            rest[:0] = more
        elif name in valued:
            value = value if value is not None else more[0][1:] if more else rest.pop(0) if rest else None
            if value is None:
                raise Usage(f"{name} needs a value")
            options[name] = value
        else:
            meant = f"-{word.partition('=')[0]}"
            raise Usage(f"there is no option {name}" + f": did you mean {meant}?" * (meant in (*flags, *valued)))
    return options, operands


def split(word):
    """The name of an option, the value in its word, and, of a row of letters, the others."""
    if word.startswith("--"):
        name, equals, value = word.partition("=")
        return name, value if equals else None, []
    return word[:2], None, [f"-{word[2:]}"] if word[2:] else []


def count(text, what):
    """A number of at least one."""
    if not (text.isascii() and text.isdigit() and len(text) < 10 and int(text)):
        raise Usage(f"{what} is a number from 1, and not '{text}'")
    return int(text)
