"""Names and links of the pages: README.md, CONTRIBUTING.md and docs/*.md. Checked, one test for each name, link and path:
- a file that a page, or a README.md inside, links to is there, and of a page the heading that the link names;
- a link into crates/ whose text is a name, as [`name`](../crates/a/specs/B.antt#L12), opens the line where that file defines the name;
  and a link to a line there has a name for its text (docs/READING.md aside, which read.py writes and compares);
- a name that is given as `crate::name` or `crate/File.name` is there: a function or type of the crate's code, a declaration of its specs or of a
  file of lemmas beside them, proofs/File.antt;
- a path in backquotes that begins with a folder of the repository is there;
- every row of docs/PROMISES.md, a line that starts with "- ", has such a link to a name, and each word in backquotes after it is a name: of
  the file that the link before it opens, else of the specs of that file's crate, else one that the specs of all crates have once;
- docs/ and README.md together have at most 90 KB, docs/PORT.md, docs/DESIGN-PASS.md and docs/LOOK-BACK.md aside.

    python3 checks/promises.py [--write]     --write puts the lines where names are defined into the links

The last line is `N passed, M failed`."""
import functools
import glob
import os
import re
import sys

# PORT has names as they were beside those of today, and is no page to be read; nor are the lists of PASS and BACK, whose names and links are those of today
PROMISES, READING, PORT, PASS, BACK = "docs/PROMISES.md", "docs/READING.md", "docs/PORT.md", "docs/DESIGN-PASS.md", "docs/LOOK-BACK.md"
MOST = 90 * 1024
LINK = re.compile(r"\[([^\]]*)\]\(([^)\s]+)\)")
QUALIFIED = re.compile(r"`([a-z0-9_]+)(::|/)([A-Za-z0-9_.:'-]+)`")
QUOTED = re.compile(r"`([^`\s]+)`")
PATH = re.compile(r"`([\w.*-]+(?:/[\w.*-]*)+)`")
HEAD = re.compile(r"^(\s*)(?:(?:abbrev|unfoldable|axiom) )*pub (?:(record|data) )?([^\s:({]+)(?=[\s:({]|$)")
CODE = re.compile(r'^\s*(?:pub )?(?:extern "C" )?(?:fn|struct|enum|const) (\w+)')


def pages():
    found = ["README.md", "CONTRIBUTING.md", *sorted(glob.glob("docs/*.md"))]
    return [page for page in found if os.path.exists(page) and page != PORT]


@functools.lru_cache(None)
def lines_of(path):
    with open(path, encoding="utf-8") as file:
        return file.read().split("\n")


@functools.lru_cache(None)
def defined_in(path):
    """The names that a file of code or specs defines: {name: line}, and of specs the parts of records and data apart."""
    own, parts, inside = {}, {}, None
    for number, line in enumerate(lines_of(path), 1):
        if path.endswith(".rt"):
            found = CODE.match(line)
            if found:
                own.setdefault(found.group(1), number)
            continue
        if inside is not None and line.strip() and len(line) - len(line.lstrip()) <= inside:
            inside = None
        found = HEAD.match(line)
        if found:
            indent, kind, name = found.groups()
            (own if inside is None else parts).setdefault(name, number)
            inside = len(indent) if kind and inside is None else inside
    return own, parts


def line_of(path, name):
    """The line where a file defines a name; None where it does not."""
    own, parts = defined_in(path)
    return own.get(name) or parts.get(name)


@functools.lru_cache(None)
def everywhere():
    """The files of specs and of lemmas that declare a name: {name: [path]}."""
    found = {}
    for path in sorted(glob.glob("crates/*/specs/*.antt") + glob.glob("crates/*/proofs/*.antt")):
        for name in defined_in(path)[0]:
            found.setdefault(name, []).append(path)
    return found


def is_there(crate, kind, name):
    """Whether `crate::name` or `crate/File.name` is; `crate/File` and, of code, `crate::name.part`, a parameter, field or case, too."""
    file, _, item = name.partition(".")
    if kind == "/":
        paths = [path for path in ("crates/%s/%s/%s.antt" % (crate, part, file) for part in ("specs", "proofs")) if os.path.exists(path)]
        return any(not item or line_of(path, item) for path in paths)
    for path in glob.glob("crates/%s/src/**/*.rt" % crate, recursive=True):
        line = line_of(path, file.split("::")[-1])
        if line:
            return not item or re.search(r"\b%s\b" % re.escape(item), "\n".join(lines_of(path)[line - 1 :]))
    return False


def slug(heading):
    return re.sub(r"[^\w\- ]", "", re.sub(r"[`*]|\]\([^)]*\)", "", heading).lower()).strip().replace(" ", "-")


class Link:
    """A link of a page: its text's name, if that is one, and the file and the place there that it opens."""

    def __init__(self, page, text, target):
        self.page, self.text, self.target = page, text, target
        file, _, self.place = target.partition("#")
        self.file = os.path.normpath(os.path.join(os.path.dirname(page), file)) if file else page
        named = re.fullmatch(r"`([^`\s]+)`", text)
        self.name = re.split(r"::|\.", named.group(1))[-1] if named and re.match(r"crates/.*\.(rt|antt)$", self.file) else None

    def fault(self):
        if not os.path.exists(self.file):
            return "which is not there"
        if self.name:
            line = line_of(self.file, self.name)
            if line is None:
                return "where no %s is defined" % self.name
            return None if self.place == "L%d" % line else "where it stands in line %d: --write" % line
        if self.place and self.file.endswith(".md"):
            headings = {slug(line.lstrip("#")) for line in lines_of(self.file) if line.startswith("#")}
            return None if self.place in headings else "where no heading is called so"
        if self.place and self.file.startswith("crates/") and self.page != READING:
            return "a line, without a name to find it by"
        return None


def links_of(page):
    for text, target in LINK.findall("\n".join(lines_of(page))):
        if not re.match(r"[a-z]+:", target):
            yield Link(page, text, target)


def rows():
    """The rows of the promises, each as (the row, what follows its sentence): from its first link on."""
    for line in lines_of(PROMISES):
        if line.startswith("- "):
            found = LINK.search(line)
            yield line, line[found.start() :] if found else ""


def short_names(cell):
    """The words in backquotes of a row that are no link: (word, the file that the link before it opens)."""
    file = None
    for text, target, word in re.findall(LINK.pattern + "|" + QUOTED.pattern, cell):
        if target:
            file = Link(PROMISES, text, target).file
        elif not QUALIFIED.fullmatch("`%s`" % word):
            yield word, file


def meant(word, file):
    """The files that a short name may mean."""
    for path in (file, file.replace("/specs/", "/proofs/")):
        if os.path.exists(path) and line_of(path, word):
            return [path]
    found = everywhere().get(word, [])
    return [path for path in found if path.split("/")[1] == file.split("/")[1]] or found


def row_faults():
    """One entry for each row and short name: None, or what is wrong."""
    for line, cell in rows():
        named = any(Link(PROMISES, *found).name for found in LINK.findall(cell))
        yield None if named else "%s: no link to a name: %s" % (PROMISES, line[:80])
        for word, file in short_names(cell):
            found = meant(word, file)
            yield None if len(found) == 1 else "%s: `%s` stands for %s" % (PROMISES, word, " and ".join(found) or "nothing that is there")


def forget():
    """Files may have changed."""
    for known in (lines_of, defined_in, everywhere):
        known.cache_clear()


def promised():
    """The declarations of specs that the promises and the assumptions name, (crate, file, name) each."""
    forget()
    for page in (PROMISES, "docs/ASSUMPTIONS.md"):
        for crate, kind, name in QUALIFIED.findall("\n".join(lines_of(page))):
            if kind == "/" and "." in name:
                file, item = name.split(".", 1)
                yield crate, file, item
                yield crate, "proofs/" + file, item
        for link in links_of(page):
            if link.name and link.file.endswith(".antt"):
                yield placed(link.file, link.name)
    for _, cell in rows():
        for word, file in short_names(cell):
            yield from (placed(path, word) for path in meant(word, file) if path.endswith(".antt"))


def placed(path, name):
    _, crate, part, file = path.split("/")
    return crate, ("proofs/" if part == "proofs" else "") + file[: -len(".antt")], name


def link_faults(page):
    """One entry for each link of a page: None, or what is wrong."""
    for link in links_of(page):
        fault = link.fault()
        yield fault and "%s links %s to %s, %s" % (page, link.text, link.target, fault)


def page_faults(page):
    """The same for its links, names and paths."""
    text = "\n".join(lines_of(page))
    yield from link_faults(page)
    for crate, kind, name in sorted(set(QUALIFIED.findall(text))):
        if os.path.isdir("crates/" + crate):
            yield None if is_there(crate, kind, name) else "%s names %s%s%s, which is not there" % (page, crate, kind, name)
    for path in sorted(set(PATH.findall(text))):
        if os.path.isdir(path.split("/")[0]) and not path.startswith("target/"):
            yield None if glob.glob(path.rstrip("/")) else "%s names %s, which is not there" % (page, path)


def write(page):
    """Puts the lines into a page's links, and the file of lemmas where a name has moved there."""

    def renewed(found):
        link = Link(page, *found.groups())
        lemmas = sorted(glob.glob("/".join(link.file.split("/")[:2]) + "/proofs/*.antt")) if link.name else []
        for file in [link.file, link.file.replace("/specs/", "/proofs/"), *lemmas]:
            line = link.name and os.path.exists(file) and line_of(file, link.name)
            if line:
                return "[%s](%s#L%d)" % (link.text, os.path.relpath(file, os.path.dirname(page)), line)
        return found.group(0)

    text = "\n".join(lines_of(page))
    new = LINK.sub(renewed, text)
    if new != text:
        with open(page, "w", encoding="utf-8") as file:
            file.write(new)


def size_fault():
    """The pages of docs/ and README.md are to be read: all in all they have so many bytes at most."""
    size = sum(os.path.getsize(page) for page in pages() if page not in ("CONTRIBUTING.md", PASS, BACK))
    return "docs/ and README.md have %d bytes, more than %d" % (size, MOST) if size > MOST else None


def tests():
    """One entry for each thing that is checked: None, or what is wrong."""
    forget()
    inside = [page for page in sorted(glob.glob("*/README.md") + glob.glob("*/*/README.md")) if not page.startswith("target/")]
    return [size_fault(), *(test for page in pages() for test in page_faults(page)), *(test for page in inside for test in link_faults(page)), *row_faults()]


def main():
    if "--write" in sys.argv:
        for page in pages():
            write(page)
    done = tests()
    faults = [fault for fault in done if fault]
    for fault in faults:
        print(fault)
    print("%d passed, %d failed" % (len(done) - len(faults), len(faults)))
    sys.exit(1 if faults else 0)


if __name__ == "__main__":
    main()
