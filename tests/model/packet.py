"""What reader and writer share: the types, the fields, and which days there are."""
import collections

# content is a name and its numbers; its digits stand beside it, its bytes or entries in the body
Fields = collections.namedtuple("Fields", "type count content digits time certificate signature")

NAMES = {0: "frequencies", 1: "address", 2: "keep", 3: "clock", 12: "reset", 13: "factory", 14: "drill", 15: "text", 21: "hold"}
NAMES.update((t, "raw") for t in (4, 5, 6, 7, 8, 11, 16, 22, 23, 24))

# the fast command, whose licence ended: shelves still hold some, so it is read, and never written (02, K13)
ONLY_READ = (16,)

# how many digits a content has; 35 is the most
DIGITS = {"address": 23, "reset": 6, "drill": 35, "text": 35}


def days(year, month):
    """By the Gregorian leap rule, for every year from 0."""
    if month == 2:
        return 29 if year % 4 == 0 and year % 100 != 0 or year % 400 == 0 else 28
    return 30 if month in (4, 6, 9, 11) else 31


def is_clock(year, month, day, hour, minute, second):
    """Type 3: month, day, hour, minute and second within their ranges."""
    return 1 <= month <= 12 and 1 <= day <= days(year, month) and hour <= 23 and minute <= 59 and second <= 59
