"""Refusals of the scripts: one line with the reason and the remedy."""

LONGEST = 300
# What may move the cursor or turn the direction of writing, beside the characters below the blank.
PARTS = ((0x7F, 0x9F), (0x200E, 0x200F), (0x2028, 0x202E), (0x2066, 0x2069), (0xD800, 0xDFFF))


class Refusal(Exception):
    """The reason why nothing was made."""


def is_unprintable(sign):
    return sign < " " or (sign >= "\x7f" and any(first <= ord(sign) <= last for first, last in PARTS))


class Unprintable:
    """The characters that aren't printed as they are. It stands for a pattern, which every start would compile."""

    @staticmethod
    def search(text):
        """Returns whether a text has one."""
        return any(map(is_unprintable, text))


UNPRINTABLE = Unprintable()


def escaped(text):
    """Returns a text as one line in which nothing moves the cursor or turns the direction of writing."""
    line = str(text)
    if line.isascii() and line.isprintable():
        return line
    return "".join(it.encode("unicode_escape").decode() if is_unprintable(it) else it for it in line)


def shown(text):
    """Returns a text from outside for a message: escaped, and not too long."""
    line = escaped(text)
    return line if len(line) <= LONGEST else f"{line[:LONGEST]}.."


def read(path):
    """Returns the bytes of a file."""
    try:
        with open(path, "rb") as file:
            return file.read()
    except OSError as error:
        raise Refusal(f"{path} can't be read: {error.strerror}") from error
