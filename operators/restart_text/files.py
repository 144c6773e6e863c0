"""Files that the commands read and write."""
import os
import sys

from . import decode, words
from .folders import settings_paths
from .inputs import is_text
from .lines import BadText, sections
from .model import Refused, Trouble, Unfit
from .terminal import headed
from .texts import settings_of

MOST_BYTES = 1 << 20  # of a file that is read whole


def name_of(path):
    return "standard input" if path == "-" else path


def read(path, most=MOST_BYTES):
    """The file's bytes. One that is larger than what may be is refused, and no more of it is read; with None there is no limit."""
    size = -1 if most is None else most + 1
    try:
        if path == "-":
            data = sys.stdin.buffer.read(size)
        else:
            with open(path, "rb") as file:
                data = file.read(size)
    except OSError as error:
        raise Trouble("cannot read %s: %s" % (path, error.strerror)) from None
    if len(data) == size:
        raise Unfit("%s has more than %d bytes, the most that is read: 500 whole reports take less" % (name_of(path), most))
    return data


def something(path, data):
    """The bytes, if anything came. What comes before a failure in a pipe may be a remark that says why."""
    if not data.strip():
        raise Unfit("nothing came: %s is empty" % name_of(path))
    if is_text(data):
        lines = [line.strip() for line in data.decode("utf-8-sig").splitlines() if line.strip()]
        if all(line.startswith("#") for line in lines):
            raise Unfit("nothing came from %s but a remark: %s" % (name_of(path), lines[-1].lstrip("# ")))
    return data


def write(path, data):
    try:
        if path in (None, "-"):
            sys.stdout.buffer.write(data)
            sys.stdout.buffer.flush()
        else:
            with open(path, "wb") as file:
                file.write(data)
    except OSError as error:
        raise Trouble("cannot write %s: %s" % (path or "standard output", error.strerror)) from None


def write_new(path, data, like=None):
    """Writes a file that is not there yet, with the time of the file `like`."""
    made = done = False
    try:
        with open(path, "xb") as file:
            made = True
            file.write(data)
        if like:
            state = os.stat(like)
            os.utime(path, ns=(state.st_atime_ns, state.st_mtime_ns))
        done = True
    except FileExistsError:
        raise Trouble("%s is there already, and is not overwritten" % path) from None
    except OSError as error:
        raise Trouble("cannot write %s: %s" % (path, error.strerror)) from None
    finally:
        if made and not done:
            os.remove(path)


def make_folder(path):
    try:
        os.makedirs(path, exist_ok=True)
    except OSError as error:
        raise Trouble("cannot make %s: %s" % (path, error.strerror)) from None


def write_told(path, lines):
    """Lines for people: on a terminal the first one is bold."""
    write_lines(path, headed(lines, sys.stdout) if path in (None, "-") else lines)


def write_lines(path, lines):
    write(path, ("\n".join(lines) + "\n").encode())


def placed(path, work):
    """What `work` comes to; a bad line is told with its file."""
    try:
        return work()
    except BadText as bad:
        raise Unfit("%s, %s" % (name_of(path), bad)) from None


def read_names(path):
    """The names that the settings of a text give."""
    return read_named(path).names


def read_named(path):
    """The settings of a text, which can have the machines' names."""
    data = read(path)
    if not is_text(data):
        raise Unfit("%s is no text; names stand in the settings of a text, as in 'node 3 set 1 name rack2-a'" % name_of(path))
    return settings_in_text(path, data)


def settings_in_text(path, data):
    found = placed(path, lambda: sections(data.decode("utf-8-sig")))
    if not found or found[0].head.form != "settings":
        raise Unfit("%s: expected 'settings' first" % name_of(path))
    return placed(path, lambda: settings_of(found[0]))


def read_settings(path):
    """Settings from a text, from their own words, from an input of words that begins with them, or from a folder that has them."""
    if os.path.isdir(path):
        found = [one for one in settings_paths(path) if os.path.exists(one)]
        if not found:
            raise Trouble("there is no settings.txt or settings.bin in %s" % path)
        path = found[0]
    data = read(path)
    if is_text(data):
        return settings_in_text(path, data)
    for block in [words.from_bytes(data)] + words.split(data)[:1]:
        try:
            return decode.settings_from(block)
        except Refused as refused:
            why = refused.why
    raise Unfit("%s has no settings: %s" % (name_of(path), why))
