"""The station's file: what stays from story to story, and the next message number and version."""
import collections
import configparser
import contextlib
import datetime
import fcntl
import os
import re
import tempfile
import time

from .ending import Refused, refused

ROOT = os.path.join(os.path.dirname(os.path.abspath(__file__)), "..", "..")
Story = collections.namedtuple("Story", "level version kind number codes certificate time signature")
DEFAULTS = {"level": "5", "kind": "2", "sender": "0" * 23, "codes": "", "certificate": "0" * 12, "date": "00000000", "serial": "1", "version": "0"}
NEXT = ("date", "serial", "version")  # the section [next]; the rest is [station]


def path_of(given):
    return given or os.environ.get("TEPAZOHUI_STATION") or os.path.normpath(os.path.join(ROOT, "station.ini"))


def today():
    return datetime.date.today().strftime("%Y%m%d")


def digits(what, given, n):
    if not re.fullmatch("[0-9]{%d}" % n, given):
        raise Refused("%s has to be %d digits, not %r" % (what, n, given))
    return given


def whole(what, given, most):
    if not re.fullmatch("[0-9]{1,10}", given) or int(given) > most:
        raise Refused("%s has to be a number from 0 to %d, not %r" % (what, most, given))
    return int(given)


def codes(given):
    return [digits("a code", code, 23) for code in re.split(r"[\s,]+", given) if code]


class Station:
    def __init__(self, path):
        self.path, self.values = path, dict(DEFAULTS)
        ini = configparser.ConfigParser(interpolation=None)
        try:
            with open(path, encoding="utf-8") as f:
                ini.read_file(f)
        except FileNotFoundError:
            return
        except (configparser.Error, UnicodeDecodeError) as error:
            raise Refused("%s is no station file: %s" % (path, str(error).splitlines()[0])) from None
        for section in ini.sections():
            for name, value in ini[section].items():
                if section != ("next" if name in NEXT else "station") or name not in DEFAULTS:
                    raise Refused("%s: nothing is known of %s in [%s]" % (path, name, section))
                self.values[name] = value

    def story(self, level=None, version=None, kind=None, number=None, codes_given=None, certificate=None, at=None, signature=None):
        """The story's fields, each as given or else as the station has it. Its number is sender, date and a serial number that begins anew
        each day; a clock that was set back doesn't bring a number again."""
        has = self.values
        date = max(digits("date", has["date"], 8), today())
        serial = whole("serial", has["serial"], 10000) if date == has["date"] else 1
        if serial > 9999 and not number:
            raise refused(32)
        self.date, self.serial = date, serial
        return Story(
            whole("level", level or has["level"], 255), whole("version", version or has["version"], 255), whole("kind", kind or has["kind"], 255),
            digits("the message number", number, 35) if number else digits("sender", has["sender"], 23) + date + "%04d" % serial,
            codes(has["codes"] if codes_given is None else codes_given), digits("certificate", certificate or has["certificate"], 12),
            int(time.time()) % 2**32 if at is None else whole("time", at, 2**32 - 1), signature or bytes(64))

    def advance(self, story, parts, own_number, own_version):
        """After a story of so many parts; what was named for this story alone doesn't move what the station has."""
        if not own_number:
            self.values.update(date=self.date, serial=str(self.serial + parts))
        if not own_version:
            self.values["version"] = str((story.version + parts) % 32)

    def text(self):
        """The file with its section [next] written anew at the end; what people wrote above it stays as it is."""
        try:
            with open(self.path, encoding="utf-8") as f:
                kept = re.sub(r"(?ms)^\[next\].*?(?=^\[|\Z)", "", f.read()).rstrip("\n")
        except FileNotFoundError:
            kept = "[station]\n" + "\n".join("%s = %s" % item for item in DEFAULTS.items() if item[0] not in NEXT)
        return "%s\n\n[next]\n%s" % (kept, "".join("%s = %s\n" % (name, self.values[name]) for name in NEXT))

    def save(self):
        """All of it or none: written beside, then renamed."""
        path = os.path.realpath(self.path)
        mode = os.stat(path).st_mode & 0o777 if os.path.exists(path) else 0o644
        handle, beside = tempfile.mkstemp(prefix=".station", dir=os.path.dirname(path))
        try:
            with open(handle, "w", encoding="utf-8") as f:
                f.write(self.text())
                f.flush()
                os.fsync(f.fileno())
            os.chmod(beside, mode)
            os.rename(beside, path)
        except BaseException:
            os.unlink(beside)
            raise


@contextlib.contextmanager
def held(path):
    """The station, with no other sender at it until the end."""
    with open(path + ".lock", "a", encoding="utf-8") as lock:
        fcntl.flock(lock, fcntl.LOCK_EX)
        yield Station(path)
