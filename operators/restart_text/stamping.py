"""When something was made and by which release: it stands on every page, in every picture and in every JSON.

SOURCE_DATE_EPOCH, seconds since 1970, stands for the clock, so that the same input gives the same bytes."""
import functools
import os
import re
import time

from .model import Trouble

HERE = os.path.dirname(os.path.realpath(__file__))
INSTALLED = "@VERSION@"  # `make install` puts the release here


@functools.cache
def version():
    """The release of this tool: as it was installed, or in a checkout that of the header."""
    if not INSTALLED.startswith("@"):
        return INSTALLED
    try:
        with open(os.path.join(HERE, "..", "..", "include", "restart.h"), encoding="utf-8") as file:
            return re.search(r'#define RESTART_VERSION "(.*)"', file.read())[1]
    except (OSError, TypeError):
        return "unknown"


def now():
    """The date in UTC, as a struct of the module time."""
    fixed = os.environ.get("SOURCE_DATE_EPOCH")
    if not fixed:
        return time.gmtime()
    try:
        return time.gmtime(int(fixed))
    except (ValueError, OverflowError, OSError):
        raise Trouble("SOURCE_DATE_EPOCH: expected seconds since 1970, found '%s'" % fixed) from None


def made_line():
    return time.strftime("Made %Y-%m-%d %H:%M UTC by restart-text ", now()) + version()


def head(schema):
    """The first values of a JSON: the version of its form, the date and the release."""
    return {"schema": schema, "made": time.strftime("%Y-%m-%dT%H:%M:%SZ", now()), "version": version()}
