"""Machines that an option names, by number or name: those that will not come back, and those that are back and are left out."""
from .files import Trouble
from .lines import BadText, node_list
from .sentences import listed, machines


def back(given, gathered):
    """The machines of which there is a report, taken or refused."""
    return gathered.held | {block[0] for block in given.blocks[1:] if block and block[0] in gathered.settings.nodes}


def known(settings):
    """The machines of the settings, as people call them."""
    if settings.names:
        return listed([settings.name(node) for node in sorted(settings.nodes)])
    return "0" if len(settings.nodes) == 1 else "0 to %d" % (len(settings.nodes) - 1)


def those_in(option, text, settings):
    """The machines that the option's text names."""
    found = set()
    for word in filter(None, (text or "").split(",")):
        try:
            nodes = {settings.names.index(word)} if word in settings.names else node_list(0, [word])
        except BadText:
            nodes = None
        if nodes is None or set(nodes) - settings.nodes:
            raise Trouble("%s: there is no machine %s; known are machines %s" % (option, word, known(settings)))
        found |= nodes
    return frozenset(found)


def gone_in(text, given, gathered, strict=True):
    """The machines that are said not to come back, and a remark where some are back; or with `strict` an error."""
    if not text or gathered.settings is None:
        return frozenset(), []
    settings, found, here = gathered.settings, those_in("--gone", text, gathered.settings), back(given, gathered)
    wrong = found & here
    if not wrong:
        return found, []
    told = "%s back, and --gone is for machines that will not come back" % (machines(settings, wrong) + (" is" if len(wrong) == 1 else " are"))
    if strict:
        raise Trouble("--gone: %s. Absent: %s. What would be without a machine that is back: --without %s"
                      % (told, settings.those(settings.nodes - here), ",".join(settings.name(node) for node in sorted(wrong))))
    return found - here, ["Note: %s." % told]


def without_in(text, given, gathered, strict=True):
    """The machines that are back and are to be left out, and a remark where some are not back; or with `strict` an error."""
    if not text or gathered.settings is None:
        return frozenset(), []
    settings, found, here = gathered.settings, those_in("--without", text, gathered.settings), back(given, gathered)
    wrong = found - here
    if not wrong:
        return found, []
    told = "%s not back" % (machines(settings, wrong) + (" is" if len(wrong) == 1 else " are"))
    if strict:
        raise Trouble("--without: %s. Back: %s" % (told, settings.those(here)))
    return found & here, ["Note: %s, so that --without changes nothing there." % told]
