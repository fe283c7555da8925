"""UTF-8 on the screen, GB/T 2312 on air. Python's codec knows the set; two of its characters have the Unicode numbers there that nobody types."""
import unicodedata

from .ending import Refused

# A1AA is the dash and A1A4 the middle dot, which keyboards and GB 18030 give as U+2014 and U+00B7
AS_CODEC = {0x2014: "\u2015", 0x00B7: "\u30fb", 0x2015: None, 0x30FB: None}
AS_TYPED = {0x2015: "\u2014", 0x30FB: "\u00b7"}


def is_in_set(character):
    if ord(character) in AS_CODEC:
        return AS_CODEC[ord(character)] is not None
    try:
        return bool(character.encode("gb2312"))
    except UnicodeEncodeError:
        return False


def place(text, i):
    """Line and column, both from 1."""
    return "line %d, column %d" % (text.count("\n", 0, i) + 1, i - text.rfind("\n", 0, i))


def named(character):
    shown = "" if unicodedata.category(character)[0] in "CZM" else character + " "
    return "%s(U+%04X %s)" % (shown, ord(character), unicodedata.name(character, "no name"))


def encoded(text):
    """The bytes on air; where a character is not in the set, the refusal names the first one and its place."""
    outside = [i for i, c in enumerate(text) if not is_in_set(c)]
    if outside:
        more = ", the first of %d such" % len(outside) if len(outside) > 1 else ""
        raise Refused("%s: %s is not in GB/T 2312%s; nothing was sent" % (place(text, outside[0]), named(text[outside[0]]), more))
    return text.translate(AS_CODEC).encode("gb2312")


def decoded(some):
    """The text of bytes on air; what is no character of the set is shown as U+FFFD."""
    return some.decode("gb2312", "replace").translate(AS_TYPED)


def typed(data):
    """The text of UTF-8 bytes."""
    try:
        return data.decode("utf-8")
    except UnicodeDecodeError as error:
        raise Refused("byte %d of the text is not UTF-8; nothing was sent" % (error.start + 1)) from None


def visible(text):
    """For a terminal: what would steer it is shown as its picture."""
    return "".join(chr(0x2400 + ord(c)) if ord(c) < 32 and c not in "\n\t" else "\u2421" if c == "\x7f" else c for c in text)
