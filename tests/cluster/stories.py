"""What has gone wrong between restarts elsewhere, as scripts over real processes: stories.py PROGRAM POWER [LEAVE_OUT [NAME ..]]

Each story stops machines and leaders in the middle of a restart, at a step that has a name, and lets others come back. In the end all machines
are back, the store serves, and every update that was told to be stored is in the log of every member of its shard. The last line is `N passed,
M failed`, one for each story."""
import os
import shutil
import signal
import sys
import time

import disk
import group
from group import Failure
from restarts import HEADER

PLACES = group.places(HEADER)
# So long nothing may be stored where there is no plan.
QUIET = 0.4
# Nodes 0, 1 and 4 are of one failure set, 2, 3 and 5 of the other; the shard needs nodes of both.
SIX = [6, 2, 2, 1, 0, 0, 1, 1, 0, 1, 2]
# The shard is on nodes 0 and 1 in the first view.
THREE = [3, 2, 2, 1, 0, 1, 0, 2]
# Machines are patient here: nobody is dropped for being slow.
TIMES = (15, 50, 2000, 5000, 400)
FOUR = [4, 2, 2, 1, 0, 0, 1, 1, 2]


class Story:
    def __init__(self, folder, program, power, settings, leave_out):
        self.g = group.Group(folder, program, power, settings, leaders=2, leave_out=leave_out, times=TIMES)
        self.g.load = group.Load(self.g.room, self.g.nodes, self.g.shards)

    # ---- Steps of a story

    def place(self, name):
        return PLACES.index(name), 1

    def up(self, *nodes, leader="l0", resumes=False, **aims):
        """These machines and a leader start. A leader has an empty disk, unless it is to go on from its file."""
        self.g.load.begin()
        self.heard = {name: len(self.g.said(name)) for name in self.g.names()}
        folder = self.g.path("disk", leader)
        for file in [] if resumes else os.listdir(folder):
            os.remove(os.path.join(folder, file))
        for name in ["m%d" % node for node in nodes] + [leader]:
            self.g.start(name, **aims.get(name, {}))

    def down(self, harsh=True):
        """All stop, and power is lost."""
        self.g.kill(self.g.alive())
        self.g.lose_power(self.g.names(), harsh)

    def stores(self, *nodes):
        """These machines serve: an update of each shard is stored, and more follow. The view has these members, if they are named."""
        self.g.serves()
        if nodes:
            members = sum(1 << node for node in nodes)
            for node in nodes:
                path = self.g.path("disk", "m%d" % node)
                if not self.g.wait_for(lambda: disk.views(path)[0].members == members):
                    sure = disk.views(path)[0]
                    raise Failure("machine %d: view %d has members %x, expected %x" % (node, sure.number, sure.members, members))
        count = self.g.load.count()
        if not self.g.wait_for(lambda: self.g.load.count() > count + 5):
            raise Failure("no update is stored any more")

    def stays_quiet(self, *nodes):
        """With these machines nothing is stored, and the leader plans nothing."""
        time.sleep(QUIET)
        self.g.load.begin()
        time.sleep(QUIET)
        if self.g.load.answered():
            raise Failure("machines %s serve, without those that they need" % (nodes,))

    def hold(self, name):
        """Waits until a process stands still at the step that it was started for."""
        def stopped():
            with open("/proc/%d/stat" % self.g.processes[name].pid) as file:
                return file.read().rsplit(")", 1)[1].split()[0] == "T"
        if not self.g.wait_for(stopped):
            raise Failure("%s does not come to its step" % name)

    def go_on(self, name):
        self.g.processes[name].send_signal(signal.SIGCONT)

    def gets_view(self, number, *nodes):
        """Waits until these machines have the view on disk."""
        for node in nodes:
            path = self.g.path("disk", "m%d" % node)
            if not self.g.wait_for(lambda: number in [view.number for view in disk.views(path) if view is not None]):
                raise Failure("machine %d does not get view %d" % (node, number))

    def says(self, name, text):
        """Waits until a process has said this since the last start of any."""
        if not self.g.wait_for(lambda: text in self.g.said(name)[self.heard[name]:]):
            raise Failure("%s has not said: %s\n%s" % (name, text, self.g.said(name)[-600:]))

    def opened_by_some(self, nodes, alone):
        """A plan with these machines is given up when some of them alone have its view open: the leader stands still before it says "prepare",
        the others stop, it says so, and then all stop."""
        self.up(*nodes, l0={"at": self.place("AT_PREPARING_SAVED"), "hold": True})
        self.hold("l0")
        self.g.kill(["m%d" % node for node in nodes if node not in alone])
        number = 1 + max(disk.views(self.g.path("disk", "m%d" % node))[0].number for node in nodes)
        self.go_on("l0")
        self.gets_view(number, *alone)
        self.down()

    def all_back(self, leader="l0", resumes=False):
        self.up(*range(self.g.nodes), leader=leader, resumes=resumes)
        self.stores()
        self.g.check()

    # ---- Stories

    def stray_kept(self):
        """View 2 on 0 to 4. A restart of 2, 3 and 4 is given up when 2 alone has its view 3. Then 0, 1 and 3 make another view 3 and store under it.
        2 and 4 must not take the stray view for the last."""
        self.up(0, 1, 2, 3, 4)
        self.stores(0, 1, 2, 3, 4)
        self.down()
        self.opened_by_some((2, 3, 4), (2,))
        self.up(0, 1, 3)
        self.stores(0, 1, 3)
        self.down()
        self.up(2, 4)
        self.stays_quiet(2, 4)
        self.says("m2", "never served")
        self.all_back()

    def none_reports(self):
        """A power cut leaves the next view on machine 2 alone, which has no shard. With all machines back no member of the shard has that view:
        it is forgotten, and not waited for."""
        self.up(0, 1, 2)
        self.stores(0, 1, 2)
        self.down()
        self.opened_by_some((0, 1, 2), (2,))
        self.all_back()
        self.says("m2", "never served")

    def stale_refused(self):
        """Machine 0 was away for a view. A restart with it is given up when it has fetched what it lacked; it must be able to report."""
        self.up(0, 1, 2, 3)
        self.stores(0, 1, 2, 3)
        self.down()
        self.up(1, 2, 3)
        self.stores(1, 2, 3)
        self.down()
        self.up(0, 2, 3, m0={"at": self.place("AT_COPY_FINISHED")})
        if not self.g.wait_for(lambda: "m0" in self.g.reap()):
            raise Failure("machine 0 has fetched nothing")
        self.down()
        self.up(0, 2, 3)
        self.stores(0, 2, 3)
        if "number 11" in self.g.said("l0"):
            raise Failure("machine 0's report is refused")
        self.down()
        self.all_back()

    def succeeded_needed(self):
        """The view of 0, 1 and 2 is followed by one of 0, 1, 3, 4 and 5, which 3, 4 and 5 alone have. They must not go on from it without 0 and 1:
        0 and 2 know nothing of it, and do go on."""
        self.up(0, 1, 2, 3)
        self.stores(0, 1, 2, 3)
        self.down()
        self.up(0, 1, 2)
        self.stores(0, 1, 2)
        self.down()
        self.opened_by_some((0, 1, 3, 4, 5), (3, 4, 5))
        self.up(3, 4, 5)
        self.stays_quiet(3, 4, 5)
        self.says("l0", "not known")
        self.down()
        self.up(0, 2)
        self.stores(0, 2)
        self.down()
        self.all_back()
        for node in (3, 4, 5):
            self.says("m%d" % node, "never served")

    def unsynced(self):
        """Machine 2 loses power between two syncs of its log, and 0, which has the shard too, is away then: what was told to be stored is on 2."""
        self.up(0, 1, 2, 3)
        self.stores()
        self.down()
        self.up(0, 1, 2, 3, m2={"sync": 60})
        if not self.g.wait_for(lambda: "m2" in self.g.reap()):
            raise Failure("machine 2 does not store")
        if disk.views(self.g.path("disk", "m0"))[0].masks[0] != 0b101:
            raise Failure("the shard is not on machines 0 and 2")
        time.sleep(0.05)
        self.down()
        self.up(1, 2, 3)
        self.stores(1, 2, 3)
        self.down()
        self.all_back()

    def resumed(self):
        """The same plan is carried out by a leader that goes on from its file, while preparing: machines 0 and 1 have finished copies, 2 has the view
        open."""
        self.up(0, 1, 2)
        self.stores(0, 1, 2)
        self.down()
        self.opened_by_some((0, 1, 2), (2,))
        self.all_back(resumes=True)
        self.says("l0", "goes on with view 3, preparing")
        self.says("l0", "view 3 is committed")

    def empty_leader(self):
        """A leader stops with "committed" on its disk and nobody told; the next one has an empty disk and finds that the view counts."""
        self.up(0, 1, 2, 3)
        self.stores()
        self.down()
        self.up(0, 1, 2, 3, l0={"at": self.place("AT_COMMITTED_SAVED")})
        if not self.g.wait_for(lambda: "l0" in self.g.reap()):
            raise Failure("the leader does not come to its step")
        opened = {node: disk.views(self.g.path("disk", "m%d" % node))[1] for node in range(4)}
        self.g.start("l1")
        self.stores(0, 1, 2, 3)
        self.g.check()
        if any((view.number, view.members) not in disk.views(self.g.path("disk", "m%d" % node))[0].list for node, view in opened.items()):
            raise Failure("a view that all members had is not in the list of the next one")

    def earlier_image(self):
        """Machine 1 reports, stops, and comes back with an older disk while the leader waits: number 18, and the others go on without it."""
        self.up(0, 1, 2, 3)
        self.stores()
        self.down()
        self.g.image("m1")
        self.all_back()
        self.down()
        self.up(1)
        self.says("l0", "waits: no majority")
        self.g.kill(["m1"])
        newer = self.g.path("newer", "m1")
        shutil.copytree(self.g.path("disk", "m1"), newer)
        self.g.set_back("m1")
        self.g.start("m1")
        self.says("l0", "number 18")
        for node in (0, 2, 3):
            self.g.start("m%d" % node)
        self.stores(0, 2, 3)
        self.g.check()
        self.down()
        shutil.rmtree(self.g.path("disk", "m1"))
        shutil.move(newer, self.g.path("disk", "m1"))
        self.all_back()

    def contradicted(self):
        """Machine 0 has a view open, 2 and 3 have it as sure, and 1, a member, comes back with an older disk: nothing is planned until its newer disk
        is there."""
        self.up(0, 1, 2, 3)
        self.stores()
        self.down()
        self.g.image("m1")
        self.up(0, 1, 2, 3, l0={"at": self.place("AT_COMMITTED_SAVED"), "hold": True})
        self.hold("l0")
        self.g.kill(["m0"])
        self.go_on("l0")
        for node in (1, 2, 3):
            if not self.g.wait_for(lambda: disk.views(self.g.path("disk", "m%d" % node))[1] is None):
                raise Failure("machine %d is not told that the view counts" % node)
        self.down()
        newer = self.g.path("newer", "m1")
        shutil.copytree(self.g.path("disk", "m1"), newer)
        self.g.set_back("m1")
        self.up(1, 2, resumes=True)  # its tags are later than machine 0's
        self.says("l0", "waits: no majority")
        self.g.start("m0")
        self.says("l0", "said to count and not to")
        self.g.start("m3")
        self.stays_quiet(0, 1, 2, 3)
        self.down()
        shutil.rmtree(self.g.path("disk", "m1"))
        shutil.move(newer, self.g.path("disk", "m1"))
        self.all_back()


STORIES = [("stray_kept", SIX), ("none_reports", THREE), ("stale_refused", FOUR), ("succeeded_needed", SIX), ("unsynced", FOUR), ("resumed", THREE),
           ("empty_leader", FOUR), ("earlier_image", FOUR), ("contradicted", FOUR)]


def tell(name, settings, program, power, leave_out):
    folder = group.new_folder()
    story, began = None, time.monotonic()
    try:
        story = Story(folder, program, power, settings, leave_out)
        getattr(story, name)()
        print("ok      %s, %.1f s" % (name, time.monotonic() - began))
        return True
    except Failure as failure:
        print("FAILED  %s: %s" % (name, failure))
        return False
    finally:
        if story is not None:
            story.g.stop()
        os.chdir("/")
        if "KEEP" in os.environ:
            print("kept in", folder)
        else:
            shutil.rmtree(folder, ignore_errors=True)


def main():
    program, power = map(os.path.abspath, sys.argv[1:3])
    leave_out = int(sys.argv[3]) if len(sys.argv) > 3 else 0
    chosen = [story for story in STORIES if len(sys.argv) <= 4 or story[0] in sys.argv[4:]]
    failed = sum(not tell(name, settings, program, power, leave_out) for name, settings in chosen)
    print("%d passed, %d failed" % (len(chosen) - failed, failed))
    sys.exit(1 if failed or not chosen else 0)


if __name__ == "__main__":
    main()
