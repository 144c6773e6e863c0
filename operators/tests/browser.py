"""Headless Chromium, where it is there or can be installed, and the pictures that it takes."""
import functools
import os
import shutil
import struct
import subprocess
import tempfile
import time
import zlib

import support

NAMES = ["chromium", "chromium-browser", "google-chrome"]
FETCHING = 60  # seconds


@functools.cache
def browser():
    """The browser's path, or None. Where there is none, Debian's package is installed, unless that takes long or is not allowed."""
    found = next(filter(None, map(shutil.which, NAMES)), None)
    if not found and os.getuid() == 0 and shutil.which("apt-get"):
        began = time.monotonic()
        subprocess.run(["sh", "-c", ". gate/needs.sh; needs_soon %d chromium" % FETCHING], cwd=support.ROOT, check=False,
                       stdout=subprocess.DEVNULL, stderr=subprocess.DEVNULL)
        found = shutil.which("chromium")
        print("pages: installing Chromium %s, %d s" % ("done" if found else "failed", time.monotonic() - began), flush=True)
    return found if found and opened(found, "data:text/html,there", "--dump-dom").find(b"there") >= 0 else None


def opened(path, address, *arguments):
    """What the browser prints for this address."""
    with tempfile.TemporaryDirectory(ignore_cleanup_errors=True) as profile:
        command = [path, "--headless", "--no-sandbox", "--disable-gpu", "--disable-dev-shm-usage", "--hide-scrollbars",
                   "--user-data-dir=" + profile, *arguments, address]
        try:
            return subprocess.run(command, capture_output=True, check=False, timeout=120).stdout
        except subprocess.TimeoutExpired:
            return b""


def text_and_picture(page, width, height):
    """The page's elements as the browser has them, and a picture of it: rows of pixels."""
    with tempfile.TemporaryDirectory() as folder:
        picture = os.path.join(folder, "page.png")
        printed = opened(browser(), "file://" + page, "--window-size=%d,%d" % (width, height), "--dump-dom",
                         "--screenshot=" + picture)
        with open(picture, "rb") as file:
            return printed.decode(), pixels(file.read())


def pixels(data):
    """The pixels of a picture (PNG, 8 bits, colour with or without alpha): rows of tuples red, green, blue."""
    at, packed, head = 8, b"", None
    while at < len(data):
        length, kind = struct.unpack(">I4s", data[at : at + 8])
        body = data[at + 8 : at + 8 + length]
        head = struct.unpack(">IIBB", body[:10]) if kind == b"IHDR" else head
        packed += body if kind == b"IDAT" else b""
        at += 12 + length
    width, height, depth, colour = head
    assert depth == 8 and colour in (2, 6), head
    size, plain, before, rows = 3 if colour == 2 else 4, zlib.decompress(packed), None, []
    for row in range(height):
        start = row * (width * size + 1)
        line = bytearray(plain[start + 1 : start + 1 + width * size])
        before = unfiltered(plain[start], line, before or bytes(width * size), size)
        rows.append([tuple(before[place : place + 3]) for place in range(0, len(before), size)])
    return rows


def unfiltered(kind, line, above, size):
    """A row of bytes without the filter that the picture's format puts over it."""
    if kind == 2:
        return bytearray((one + up) & 255 for one, up in zip(line, above))
    for place in range(len(line)) if kind else ():
        left = line[place - size] if place >= size else 0
        corner = above[place - size] if place >= size else 0
        guess = [0, left, above[place], (left + above[place]) // 2, paeth(left, above[place], corner)][kind]
        line[place] = (line[place] + guess) & 255
    return line


def paeth(left, up, corner):
    """Of the three the one nearest to left + up - corner."""
    near = left + up - corner
    return min((left, up, corner), key=lambda one: abs(near - one))
