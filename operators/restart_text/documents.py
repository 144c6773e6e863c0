"""Where the documents are that sentences name."""
import os

HERE = os.path.dirname(os.path.realpath(__file__))
INSTALLED = "@DOCDIR@"  # `make install` puts its folder here


def document(name):
    """As people find it: in a checkout under docs, else where it was installed, also where the tree was moved as a whole."""
    if not os.path.exists(os.path.join(HERE, "..", "..", "crates.txt")):
        for folder in (os.path.join(HERE, "..", "..", "doc", "restart"), INSTALLED):
            if os.path.exists(os.path.join(folder, name)):
                return os.path.normpath(os.path.join(folder, name))
    return "docs/" + name
