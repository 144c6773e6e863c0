"""restart-text words: from text to words."""
import sys

from .. import encode, state, texts, words
from ..files import Trouble, Unfit, placed, read, something, write
from ..inputs import from_text, is_text
from ..lines import BadText, sections
from ..model import MOST_RECORDS
from .shared import file_argument, output_argument


def arguments(parser):
    file_argument(parser, about="the text to read, - for standard input")
    output_argument(parser)
    parser.add_argument("--decimal", action="store_true", help="print the words as decimal numbers, a block in a line")


def work(chosen):
    blocks, with_counts = placed(chosen.file, lambda: text_blocks(something(chosen.file, read(chosen.file))))
    if chosen.decimal:
        lines = [" ".join(map(str, [len(block)] * with_counts + block)) for block in blocks]
        write(chosen.output, ("\n".join(lines) + "\n").encode())
    elif chosen.output is None and sys.stdout.isatty():
        raise Trouble("words are not for a terminal; give -o FILE or --decimal")
    else:
        write(chosen.output, words.joined(blocks) if with_counts else words.to_bytes(blocks[0]))


def text_blocks(data):
    """The blocks of words that a text tells of, and whether each is preceded by its count."""
    if not is_text(data):
        raise Unfit("this is no text; for words use the command text")
    text = data.decode("utf-8-sig")
    found = sections(text)
    kind = found[0].head.form.split()[0] if found else ""
    if kind in ("order", "state") and len(found) > 1:
        raise BadText(found[1].line, "expected nothing after the %s" % kind)
    if kind == "order":
        message = encode.order_words(texts.order_of(found[0]))
        return [message + [0] * (4 * MOST_RECORDS - len(message))], False
    if kind == "state":
        return [state.to_words(state.from_section(found[0]))], False
    return from_text(text).blocks, True
