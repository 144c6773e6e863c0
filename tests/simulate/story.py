"""A course of the simulation, told in words and drawn as a timeline.

    story.py LOG            prints the words
    story.py LOG FILE.svg   draws as well

A line of the log is `event who verb words..`: a machine is its number, a leader L0 to L3, a client C0.., the power `*`, the verdict `!`."""
import html
import sys

KEPT = 14  # lines of words before the verdict that are always told


class Line:
    def __init__(self, text):
        words = text.split()
        self.event, self.who, self.verb, self.words = int(words[0]), words[1], words[2], words[3:]

    def rest(self):
        return " ".join(self.words)


def read(path):
    with open(path) as file:
        return [Line(text) for text in file if text.strip()]


def named(who):
    if who == "*":
        return "all"
    if who.startswith("L"):
        return "leader %s" % who[1:]
    if who.startswith("C"):
        return "client %s" % who[1:]
    return "machine %s" % who


def listed(mask):
    """A mask in hexadecimal as machines."""
    mask = int(mask, 16)
    return "{%s}" % ", ".join(str(n) for n in range(32) if mask >> n & 1)


# The sentence of each verb; a verb that is not here is drawn or left out.
SENTENCES = {
    "store": lambda line: "A store of %s machines and %s shard%s." % (line.words[0], line.words[1], "" if line.words[1] == "1" else "s"),
    "shard": lambda line: "Shard %s is on %s in view 1." % (line.words[0], listed(line.words[1])),
    "round": lambda line: "The power is back for %s (%s)." % (listed(line.words[1]), " ".join(line.words[2:])),
    "cut": lambda line: "The power is cut: all stop.",
    "kill": lambda line: "%s stops in %s." % (named(line.who), line.rest() or "nothing"),
    "power": lambda line: "%s loses its power in %s." % (named(line.who), line.rest() or "nothing"),
    "start": lambda line: "%s starts." % named(line.who),
    "settings": lambda line: "The settings are others from here on: failure sets, needs and caps.",
    "damaged-report": lambda line: "The report of %s is damaged on its way and says view %s." % (named(line.who), line.words[0]),
    "image": lambda line: "%s has an older image of its disk." % named(line.who),
    "wiped": lambda line: "%s has an empty disk." % named(line.who),
    "open": lambda line: "%s has view %s = %s on disk, open." % (named(line.who), line.words[0], listed(line.words[1])),
    "sure": lambda line: "%s has view %s = %s on disk, sure." % (named(line.who), line.words[0], listed(line.words[1])),
    "forget": lambda line: "%s forgets its open view %s." % (named(line.who), line.words[0]),
    "serve": lambda line: "%s serves view %s." % (named(line.who), line.words[0]),
    "plan": lambda line: "%s plans view %s = %s." % (named(line.who), line.words[0], listed(line.words[1])),
    "target": lambda line: "  shard %s: the log of machine %s up to (%s, %s), to %s."
    % (line.words[0], line.words[1], line.words[2], line.words[3], listed(line.words[4])),
    "commit": lambda line: "%s has view %s = %s committed." % (named(line.who), line.words[0], listed(line.words[1])),
    "ack": lambda line: "%s is told that update %s of shard %s is stored." % (named(line.who), line.words[1], line.words[0]),
    "heal": lambda line: "All machines come up and nothing fails any more.",
    "say": lambda line: "%s: %s" % (named(line.who), line.rest()),
    "found": lambda line: "FOUND: %s" % line.rest(),
}


def sentence(line):
    make = SENTENCES.get(line.verb)
    if not make:
        return None
    text = make(line)
    return text[:1].upper() + text[1:]


def words(lines, every=False):
    """The course in words: views, stops and acknowledgements; what people are told only near the end."""
    told = []
    for at, line in enumerate(lines):
        if line.verb == "say" and not every and at < len(lines) - KEPT:
            continue
        text = sentence(line)
        if text:
            told.append("%6d  %s" % (line.event, text))
    return told


# ---- The timeline

LANE, LEFT, WIDTH, TOP = 34, 96, 1180, 70
COLOURS = ["#4e79a7", "#f28e2b", "#59a14f", "#b07aa1", "#76b7b2", "#edc948", "#9c755f", "#ff9da7"]


def colour(view):
    return COLOURS[int(view) % len(COLOURS)]


def draw(lines):
    """An SVG: a lane for each machine and leader, with stops, views and what was lost."""
    machines = sorted({int(line.who) for line in lines if line.who.isdigit()})
    leaders = sorted({line.who for line in lines if line.who.startswith("L")})
    lanes = {str(n): i for i, n in enumerate(machines)}
    lanes.update({who: len(machines) + i for i, who in enumerate(leaders)})
    shown = [line for line in lines if line.verb not in ("say", "shard", "target")]
    # equal steps for what is shown, so that quiet stretches take no room
    steps = {}
    for line in shown:
        steps.setdefault(line.event, len(steps))
    span = max(len(steps), 1)

    def x(event):
        return LEFT + (steps[event] + 0.5) * WIDTH / span

    def y(who):
        return TOP + lanes[who] * LANE + LANE / 2

    height = TOP + len(lanes) * LANE + 70
    end = LEFT + WIDTH
    out = [
        '<svg xmlns="http://www.w3.org/2000/svg" viewBox="0 0 %d %d" font-family="sans-serif" font-size="11">' % (end + 30, height),
        '<rect width="100%" height="100%" fill="#ffffff"/>',
    ]
    verdict = next((line for line in lines if line.verb == "found"), None)
    title = verdict.rest() if verdict else "Nothing was found."
    out.append('<text x="12" y="22" font-size="15" font-weight="bold" fill="%s">%s</text>' % ("#c00000" if verdict else "#333333", html.escape(title)))
    out.append(
        '<text x="12" y="42" fill="#555555">One step for each event that is told. Grey: up. Coloured: serves a view. '
        "Hollow box: view open on disk; filled: sure. Cross: stopped. Tick: acknowledged.</text>"
    )
    for who in lanes:
        out.append('<text x="12" y="%.1f">%s</text>' % (y(who) + 4, html.escape(named(who))))
        out.append('<line x1="%d" x2="%d" y1="%.1f" y2="%.1f" stroke="#eeeeee"/>' % (LEFT, end, y(who), y(who)))
    up, serving, over, under = {}, {}, [], []

    def close(who, at):
        if who in up:
            under.append('<line x1="%.1f" x2="%.1f" y1="%.1f" y2="%.1f" stroke="#bbbbbb" stroke-width="4"/>' % (up.pop(who), at, y(who), y(who)))
        if who in serving:
            begun, view = serving.pop(who)
            under.append(
                '<line x1="%.1f" x2="%.1f" y1="%.1f" y2="%.1f" stroke="%s" stroke-width="10" stroke-opacity="0.6"/>' % (begun, at, y(who), y(who), colour(view))
            )

    for line in shown:
        at, who = x(line.event), line.who
        if line.verb == "cut":
            for each in list(up):
                close(each, at)
            over.append('<line x1="%.1f" x2="%.1f" y1="%d" y2="%d" stroke="#c00000" stroke-width="2"/>' % (at, at, TOP - 4, TOP + len(lanes) * LANE))
        elif line.verb == "heal":
            over.append('<line x1="%.1f" x2="%.1f" y1="%d" y2="%d" stroke="#59a14f" stroke-dasharray="4 3"/>' % (at, at, TOP - 4, TOP + len(lanes) * LANE))
            over.append('<text x="%.1f" y="%d" fill="#59a14f">all come up</text>' % (at + 2, TOP - 8))
        elif line.verb == "start" and who in lanes:
            up[who] = at
        elif line.verb in ("kill", "power") and who in lanes:
            close(who, at)
            over.append('<path d="M%.1f %.1fl8 8m0 -8l-8 8" stroke="#c00000" stroke-width="2"/>' % (at - 4, y(who) - 4))
        elif line.verb == "image" and who in lanes:
            over.append('<text x="%.1f" y="%.1f" fill="#c00000">older image</text>' % (at, y(who) - 8))
        elif line.verb == "serve" and who in lanes:
            close(who, at)
            up[who], serving[who] = at, (at, line.words[0])
        elif line.verb == "idle" and who in lanes:
            close(who, at)
            up[who] = at
        elif line.verb in ("open", "sure", "forget") and who in lanes:
            view = line.words[0]
            fill = colour(view) if line.verb == "sure" else "#ffffff"
            dash = ' stroke-dasharray="2 2"' if line.verb == "forget" else ""
            ink = "#ffffff" if line.verb == "sure" else "#333333"
            over.append('<rect x="%.1f" y="%.1f" width="16" height="14" fill="%s" stroke="%s"%s/>' % (at - 8, y(who) - 7, fill, colour(view), dash))
            over.append('<text x="%.1f" y="%.1f" text-anchor="middle" fill="%s">%s</text>' % (at, y(who) + 4, ink, html.escape(view)))
        elif line.verb in ("plan", "commit") and who in lanes:
            below = y(who) + (15 if line.verb == "commit" else -7)
            said = line.verb, html.escape(line.words[0])
            over.append('<text x="%.1f" y="%.1f" text-anchor="middle" fill="%s">%s %s</text>' % (at, below, colour(line.words[0]), *said))
            over.append('<circle cx="%.1f" cy="%.1f" r="4" fill="%s"/>' % (at, y(who), colour(line.words[0])))
        elif line.verb == "ack":
            lost = verdict is not None and "update %s " % line.words[1] in verdict.rest() + " "
            ink = "#c00000" if lost else "#333333"
            low = TOP + len(lanes) * LANE
            over.append('<line x1="%.1f" x2="%.1f" y1="%d" y2="%d" stroke="%s" stroke-width="%d"/>' % (at, at, low + 4, low + 14, ink, 3 if lost else 1))
            if lost:
                over.append('<text x="%.1f" y="%d" text-anchor="middle" fill="#c00000">update %s stored</text>' % (at, low + 30, html.escape(line.words[1])))
        elif line.verb == "found":
            ends = at, at, TOP - 4, TOP + len(lanes) * LANE + 20
            over.append('<line x1="%.1f" x2="%.1f" y1="%d" y2="%d" stroke="#c00000" stroke-width="3" stroke-dasharray="6 3"/>' % ends)
            over.append('<text x="%.1f" y="%d" text-anchor="end" fill="#c00000">found here</text>' % (at - 4, TOP + len(lanes) * LANE + 46))
    for who in list(up):
        close(who, end)
    # event numbers below, not too many
    for i, event in enumerate(list(steps)):
        if i % max(1, span // 12) == 0:
            out.append('<text x="%.1f" y="%d" fill="#888888" text-anchor="middle">%d</text>' % (x(event), height - 8, event))
    return "\n".join(out + under + over + ["</svg>"]) + "\n"


def main():
    if len(sys.argv) not in (2, 3):
        sys.exit(__doc__)
    lines = read(sys.argv[1])
    print("\n".join(words(lines)))
    if len(sys.argv) == 3:
        with open(sys.argv[2], "w") as file:
            file.write(draw(lines))


if __name__ == "__main__":
    main()
