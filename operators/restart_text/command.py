"""The command restart-text."""
import argparse
import difflib
import sys
import textwrap

from .answers import BadAnswer
from .commands import check, convert, diff, draw, explain, join, page, publisher, readiness, rounds, shift, split, status, text, watch, windows, words
from .files import Trouble, Unfit
from .lines import BadText
from .model import Refused
from .stamping import version
from .statuses import OTHER, REFUSAL

# By task, one line for each subcommand: its name, its module, and what it does.
TASKS = [
    ("Before the night", [
        ("check", check, "say and draw whether settings can be met, also with a machine or a failure set away"),
        ("readiness", readiness, "say and draw how often a layout could restart, or two layouts side by side"),
        ("shift", shift, "plan repairs: which machines to keep on, and what to bring back for each one that is lost"),
    ]),
    ("In the night", [
        ("watch", watch, "explain a folder, or the status of a leader's file, anew whenever something changes"),
        ("explain", explain, "say what the answer is and what to do: which machines to switch on, what a plan costs"),
        ("draw", draw, "the same as a picture, SVG"),
        ("page", page, "the same as one file of HTML: picture, table and explanation"),
        ("rounds", rounds, "say and draw what a plan costs after each improving round"),
        ("status", status, "say how far a running restart is, by its leader's file or by state and desk"),
        ("publisher", publisher, "say what a subgroup's publisher may see, as text or as one file of HTML"),
    ]),
    ("After it", [
        ("diff", diff, "compare two answers, and their settings and reports"),
        ("windows", windows, "draw the moves of many restarts, as mondays prints them, SVG"),
    ]),
    ("Files", [
        ("words", words, "turn a text (settings and reports, an order, or a state) into words"),
        ("text", text, "turn words into text"),
        ("join", join, "make one input from a file with settings and files with reports"),
        ("split", split, "take an input apart into files, as watch reads them"),
        ("convert", convert, "turn a folder of flat reports of the former seller into ours, or back"),
    ]),
]
COMMANDS = [one for _, commands in TASKS for one in commands]
STATUSES = ("Exit status: 0 a plan, or done; 1 a wait (diff: the answers differ; shift: the outage wins; check: a single point of failure); 2 a"
            " refusal; 3 anything else.")
WIDTH = 79


class Parser(argparse.ArgumentParser):
    def error(self, message):
        self.print_usage(sys.stderr)
        self.exit(OTHER, "%s: %s\n" % (self.prog, message))


class Top(Parser):
    """The commands are listed by task, and one that is misspelt is told which one is like it."""

    def format_help(self):
        lines = [self.format_usage(), "Texts, explanations and drawings for operators of the restart planner."]
        for task, commands in TASKS:
            lines += ["", task + ":"]
            for name, _, about in commands:
                lines += textwrap.wrap(about, WIDTH, initial_indent="    %-11s" % name, subsequent_indent=" " * 15)
        lines += ["", "restart-text COMMAND --help says what a command takes; restart-text(1) says all."]
        return "\n".join(lines + textwrap.wrap(STATUSES, WIDTH)) + "\n"

    def error(self, message):
        names = [name for name, *_ in COMMANDS]
        wrong = next((word for word in self.given if not word.startswith("-")), None)
        like = difflib.get_close_matches(wrong, names, 1) if wrong and wrong not in names else []
        self.print_usage(sys.stderr)
        if wrong and wrong not in names:
            message = "there is no command '%s'%s" % (wrong, "; is it %s?" % like[0] if like else "")
        self.exit(OTHER, "%s: %s; restart-text --help lists the commands\n" % (self.prog, message))

    def parse_args(self, args=None, namespace=None):
        self.given = sys.argv[1:] if args is None else args
        return super().parse_args(args, namespace)


def main(arguments=None):
    chosen = parser().parse_args(arguments)
    try:
        return chosen.work(chosen) or 0
    except (BadText, Refused, Unfit) as refusal:
        print("restart-text: %s" % refusal, file=sys.stderr)
        return REFUSAL
    except (Trouble, BadAnswer) as trouble:
        print("restart-text: %s" % trouble, file=sys.stderr)
        return OTHER


def parser():
    top = Top(prog="restart-text")
    top.add_argument("--version", action="version", version="restart-text %s" % version())
    commands = top.add_subparsers(required=True, metavar="COMMAND", parser_class=Parser)
    for name, module, help_text in COMMANDS:
        made = commands.add_parser(name, description=help_text, epilog=STATUSES)
        module.arguments(made)
        made.set_defaults(work=module.work)
    return top
