"""Make the example's settings and reports, words as little-endian bytes, from the text beside this script: operators/restart-text turns it
into words, each block preceded by its word count, and each block becomes a file.

    make_reports.py [FOLDER]    writes the files under FOLDER; without one, beside this script"""
import os
import struct
import subprocess
import sys

HERE = os.path.dirname(os.path.abspath(__file__))
TOOL = os.path.join(HERE, "..", "operators", "restart-text")


def blocks(data):
    """The blocks of an input, without their counts."""
    while data:
        size = 4 * struct.unpack_from("<I", data)[0]
        yield data[4 : 4 + size]
        data = data[4 + size :]


def names(messages):
    """A file's name for each report: how many its machine has made up to it, and the machine."""
    made = {}
    for message in messages:
        node = struct.unpack_from("<I", message)[0]
        made[node] = made.get(node, 0) + 1
        yield "reports/%d-machine-%d.bin" % (made[node], node)


def main():
    folder = sys.argv[1] if len(sys.argv) > 1 else HERE
    words = subprocess.run([sys.executable, TOOL, "words", os.path.join(HERE, "reports.txt")], stdout=subprocess.PIPE, check=True).stdout
    settings, *messages = blocks(words)
    os.makedirs(os.path.join(folder, "reports"), exist_ok=True)
    for name, content in zip(["settings.bin", *names(messages)], [settings, *messages]):
        with open(os.path.join(folder, name), "wb") as out:
            out.write(content)


main()
