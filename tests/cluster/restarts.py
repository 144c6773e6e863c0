"""Restart after restart of a store of real processes: killed with -9 at every step that has a name, between any two writes, all, some, the
leader; power cuts, torn ends of logs, leaders with empty or damaged disks, few machines back, then others.

    restarts.py PROGRAM POWER RESTARTS KILLS SECONDS SEED [LEAVE_OUT [PART PARTS]]

After each restart all machines are back, the store serves within group.LIMIT, and every update that was told to be stored is in the log of every
member of its shard. Ends after so many restarts and kills at least, not before so many seconds, and once somebody has died at every step that
has a name, or at every one of this part of them. The last line is `N passed, M failed`."""
import os
import random
import re
import shutil
import sys
import time

import group
from group import Failure

# Six machines in three failure sets, four shards in two subgroups; each needs nodes of two sets, and the last may keep a third.
SETTINGS = [6, 3, 3, 4, 0, 0, 1, 1, 2, 2, 2, 2, 256 + 2, 3 * 65536 + 256 + 2]
HEADER = os.path.join(os.path.dirname(os.path.abspath(__file__)), "../../examples/cluster/cluster.h")
MACHINE_STEPS, LEADER_STEPS = 60, 45
LEADER = os.path.join(os.path.dirname(HEADER), "leader.c")


class Course:
    def __init__(self, folder, program, power, seed, leave_out=0):
        self.random = random.Random(seed)
        self.group = group.Group(folder, program, power, SETTINGS, leaders=3, seed=seed, leave_out=leave_out)
        self.group.load = group.Load(self.group.room, self.group.nodes, self.group.shards, seed=seed)
        self.places = group.places(HEADER)
        with open(LEADER) as file:
            self.of_leaders = set(re.findall(r"AT_\w+", file.read())) & set(self.places)
        self.reached = dict.fromkeys(self.places, 0)
        self.steps = []  # deaths at a step on a disk: whose and which
        self.tried = {"m": self.random.randrange(MACHINE_STEPS), "l": self.random.randrange(LEADER_STEPS)}
        self.restarts = self.checks = 0
        self.slowest = 0.0

    def chance(self, part):
        return self.random.random() < part

    # ---- What goes wrong

    def stop_some(self):
        """All stop, or the leader, or some."""
        g = self.group
        kind = self.random.random()
        alive = g.alive()
        if kind < 0.6:
            names = alive
        elif kind < 0.75:
            names = [name for name in alive if name[0] == "l"]
        else:
            names = [name for name in alive if self.chance(0.4)]
        g.kill(names)
        self.after_stop(names)

    def after_stop(self, names):
        """Power may be lost, ends of logs torn, a leader's disk lost or damaged."""
        g = self.group
        if self.chance(0.7):
            g.lose_power(names, harsh=self.chance(0.5))
        for name in names:
            folder = g.path("disk", name)
            if name[0] == "m" and self.chance(0.2):
                self.tear_log(folder)
            if name[0] == "l" and self.chance(0.25):
                for file in os.listdir(folder):
                    os.remove(os.path.join(folder, file))
            elif name[0] == "l" and self.chance(0.2):
                self.damage(os.path.join(folder, "leader"))

    def tear_log(self, folder):
        """A log gets the beginning of an update that was never synced."""
        logs = [name for name in os.listdir(folder) if name.startswith("log-")]
        if logs:
            with open(os.path.join(folder, self.random.choice(logs)), "ab") as file:
                file.write(bytes(self.random.randrange(256) for _ in range(self.random.randint(1, 40))))

    def damage(self, path):
        """A leader's file that is cut off, has changed or is another file."""
        if not os.path.exists(path):
            return
        size = os.path.getsize(path)
        kind = self.random.randrange(3)
        if kind == 0:
            os.truncate(path, self.random.randrange(size))
            return
        with open(path, "r+b") as file:
            file.seek(0 if kind == 1 else self.random.randrange(size))
            file.write(b"?")

    # ---- A restart

    def aims(self, place):
        """Who is to die where in this restart."""
        g = self.group
        machines, leaders = g.machines(), g.leaders()
        if place is not None:
            number = self.places.index(place)
            of_machines = place not in self.of_leaders
            names = machines if of_machines else leaders
            if of_machines and self.chance(0.5):
                names = self.random.sample(machines, 2)
            aims = {name: {"at": (number, 1 if self.chance(0.7) else 2)} for name in names}
            if place == "AT_GIVEN_UP":  # a machine that stops while ordered
                aims[self.random.choice(machines)] = {"at": (self.places.index("AT_COPY_SYNCED"), 1)}
                return aims
            names = [name for name in g.names() if name not in aims and self.chance(0.2)]
        else:
            aims = {}
            names = self.random.sample(machines + leaders, self.random.randint(1, 4))
        aims.update((name, {"step": self.next_step(name)}) for name in names)
        return aims

    def next_step(self, name):
        """Steps on a disk one after another: those of a restart, and of a machine also some of the service after it."""
        most = MACHINE_STEPS if name[0] == "m" else LEADER_STEPS
        self.tried[name[0]] = self.tried[name[0]] % most + 1
        return self.tried[name[0]]

    def wait_for_deaths(self, aims, place, seconds):
        """Until somebody has died where it was to; then others may stop as well."""
        g = self.group
        died = []
        wanted = [name for name in aims if place is None or aims[name].get("at", (None,))[0] == self.places.index(place)]

        def somebody():  # or all shards store again, and no restart goes on
            died.extend(g.reap())
            return any(name in wanted for name in died) or len(g.load.answered()) == g.shards

        g.wait_for(somebody, seconds)
        time.sleep(self.random.choice([0, 0, 0.01, 0.05]))
        died += g.reap()
        for name in died:
            if "at" in aims.get(name, {}):
                self.reached[self.places[aims[name]["at"][0]]] += 1
            elif "step" in aims.get(name, {}):
                self.steps.append((name[0], aims[name]["step"]))
        return died

    def restart(self, place):
        """Stops, starts with a death in the middle of it, and then all are back."""
        g = self.group
        g.options = ["--terminate"] if place == "AT_TERMINATED" or self.chance(0.3) else []
        self.stop_some()
        if place is not None and self.chance(0.8):
            g.kill(g.alive())  # so that whoever is to die starts anew
        aims = self.aims(place)
        few = self.random.sample(g.names(), self.random.randint(1, len(g.names()))) if self.chance(0.3) else g.names()
        g.load.begin()
        if self.chance(0.3):
            g.start(group.CLIENT, step=self.random.choice([None, 2, 5]))
        for name in few:
            g.start(name, **aims.get(name, {}))
        if len(few) < len(g.names()):
            time.sleep(self.random.choice([0.02, 0.1]))
            g.start_all(**aims)
        died = self.wait_for_deaths(aims, place, 2.0)
        more = [name for name in g.alive() if self.chance(1.0 if self.chance(0.4) else 0.1)]
        g.kill(more)
        self.after_stop(died + more)
        if self.chance(0.4):
            self.without_some()
        self.all_back()

    def without_some(self):
        """The store may serve without one or two machines, which come back later."""
        g = self.group
        away = self.random.sample(g.machines(), self.random.randint(1, 2))
        g.kill(away)
        self.after_stop(away)
        g.load.begin()
        for name in g.names():
            if name not in away:
                g.start(name)
        g.wait_for(lambda: len(g.load.answered()) == g.shards, 0.5)

    def all_back(self):
        """All machines are back: the store serves, and nothing is lost."""
        g = self.group
        died = g.reap()  # whoever was still aimed at
        self.after_stop(died)
        g.load.begin()
        g.start_all()
        before = g.view
        end = time.monotonic() + group.LIMIT
        while not g.load.wait_all(0.05):
            died = g.reap()
            for name in died:
                g.start(name)
            if time.monotonic() > end:
                g.serves(0)
        self.slowest = max(self.slowest, time.monotonic() - g.load.since)
        time.sleep(self.random.choice([0, 0.02, 0.06]))
        g.check()
        self.checks += 1
        self.restarts += g.view > before

    def run(self, restarts, kills, seconds, part, parts):
        began = time.monotonic()
        end = began + seconds
        wanted = self.places[part::parts]
        aims = list(wanted)
        self.random.shuffle(aims)
        self.all_back()
        while self.restarts < restarts or self.group.kills < kills or time.monotonic() < end or aims:
            place = aims.pop() if aims else self.random.choice(self.places + [None] * len(self.places))
            self.restart(place)
            if "PROGRESS" in os.environ:
                print("%6.1f s: %s; restarts %d, kills %d, told %d" % (time.monotonic() - began, place, self.restarts, self.group.kills, self.told()),
                      flush=True)
            if not aims:
                aims = [place for place in wanted if self.reached[place] == 0]
            if aims and self.checks > 4 * len(wanted) + restarts:
                raise Failure("nobody has died at " + ", ".join(aims))

    def told(self):
        return self.group.load.count() + sum(map(len, self.group.told_to_client()))


def main():
    program, power, restarts, kills, seconds, seed = sys.argv[1:7]
    leave_out, part, parts = map(int, (sys.argv[7:] + ["0", "0", "1"][len(sys.argv) - 7:])[:3])
    folder = group.new_folder()
    course, failed = None, 0
    try:
        course = Course(folder, os.path.abspath(program), os.path.abspath(power), int(seed), leave_out)
        course.run(int(restarts), int(kills), float(seconds), part, parts)
    except Failure as failure:
        failed = 1
        print("FAILED (seed %s): %s" % (seed, failure))
    finally:
        if course is not None:
            course.group.stop()
            g = course.group
            print("%d restarts, %d kills, %d of them at one of %d steps with a name and %d before one of %d steps on a disk, %d names and ends lost with the "
                  "power, %d updates told to be stored; with all machines back the store served after %.2f s at most"
                  % (course.restarts, g.kills, sum(course.reached.values()), sum(map(bool, course.reached.values())), len(course.steps),
                     len(set(course.steps)), g.cuts, course.told(), course.slowest))
        os.chdir("/")
        if failed and "KEEP" in os.environ:
            print("kept in", folder)
        else:
            shutil.rmtree(folder, ignore_errors=True)
    print("%d passed, %d failed" % (course.checks if course else 0, failed))
    sys.exit(1 if failed else 0)


if __name__ == "__main__":
    main()
