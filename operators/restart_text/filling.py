"""Reports that will soon be full: a report has at most 128 records, and a log gets a run more with every view."""
from .encode import report_words
from .model import MOST_RECORDS
from .sentences import listed

NEARLY = MOST_RECORDS * 3 // 4
CURE = ("A log gets a run more with every view, and a machine whose runs do not fit cannot report and counts as absent. The cure is short reports"
        " (duty 7): of each shard that it carries a machine tells the run of the view that it reports and no other, at most 49 records; all machines"
        " do so from the same restart on.")


def nearly_full(gathered):
    """The held machines whose reports have at least three quarters of what one may have, and how many records each has."""
    counts = {node: len(report_words(report)) // 4 for node, report in sorted(gathered.reports.items())}
    return {node: count for node, count in counts.items() if count >= NEARLY}


def filling_lines(gathered):
    """One line for all of them."""
    found, name = nearly_full(gathered), gathered.settings.name
    if not found:
        return []
    if len(found) == 1:
        told = "the report of machine %s has %d" % next((name(node), count) for node, count in found.items())
    else:
        told = "the reports of machines %s have so many" % listed("%s (%d)" % (name(node), count) for node, count in found.items())
    return ["Nearly full: %s of at most %d records. %s" % (told, MOST_RECORDS, CURE)]
