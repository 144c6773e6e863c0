"""A store as real processes: machines, a list of leaders and clients in one folder, killed with -9 and started again."""
import os
import random
import re
import select
import shutil
import signal
import socket
import struct
import subprocess
import tempfile
import threading
import time

import disk

CLIENTS_AT = 64
WRITE, STORED, MOVED = 16, 17, 18
# beat, grace, patience, slow, takeover in milliseconds
TIMES = (15, 50, 300, 900, 250)
# The client that is a process of its own; the others are threads of the test.
CLIENT = "c20"
# With all machines back the store serves again within so many seconds, also on a machine that is busy otherwise.
LIMIT = float(os.environ.get("CLUSTER_LIMIT", "20"))
STORED_LINE = re.compile(r"stored: shard (\d+) client (\d+) number (\d+) player (\d+) score (\d+)$", re.M)


class Failure(Exception):
    """What a check has found wrong."""


def places(header):
    """The names of the steps that a test can aim at, by number."""
    with open(header) as file:
        text = file.read()
    return re.findall(r"^ *X\((AT_\w+)", text, re.M)


def new_folder():
    """Where a store's disks are: in memory if there is such a place, for power.c says what a power cut leaves."""
    memory = "/dev/shm" if os.access("/dev/shm", os.W_OK) else None
    return tempfile.mkdtemp(prefix="cluster-", dir=os.environ.get("TMPDIR") or memory)


class Group:
    def __init__(self, folder, program, power, settings, leaders=2, seed=1, leave_out=0, times=TIMES, options=()):
        self.folder, self.program, self.power, self.leave_out, self.options = folder, program, power, leave_out, list(options)
        self.read_of_client, self.client_told = 0, [[] for _ in range(settings[3])]
        self.random, self.times, self.leader_count = random.Random(seed), times, leaders
        self.nodes, self.shards = settings[0], settings[3]
        self.processes, self.kills, self.cuts = {}, 0, 0
        self.chains, self.view = [Chain() for _ in range(self.shards)], 0
        self.room = os.path.join(folder, "room")
        for path in [self.room] + [self.path(kind, name) for kind in ("disk", "before") for name in self.names() + [CLIENT]]:
            os.makedirs(path)
        self.settings = os.path.join(folder, "settings.bin")
        with open(self.settings, "wb") as file:
            file.write(struct.pack("<%dI" % len(settings), *settings))
        for node in range(self.nodes):
            subprocess.run(self.command("format", "m%d" % node), check=True)
        self.load = None

    def machines(self):
        return ["m%d" % node for node in range(self.nodes)]

    def leaders(self):
        return ["l%d" % leader for leader in range(self.leader_count)]

    def names(self):
        return self.machines() + self.leaders()

    def path(self, kind, name):
        return os.path.join(self.folder, kind + "-" + name)

    def command(self, what, name, *more):
        return [self.program, what, "--settings", self.settings, "--folder", self.path("disk", name), "--room", self.room, "--number", name[1:],
                "--times", ",".join(map(str, self.times))] + list(more)

    # ---- Processes

    def start(self, name, at=None, step=None, sync=None, hold=False):
        """Starts a machine (m3), a leader (l0) or a client (c20); it dies at the place `at` = (number, count), or stands still there, or dies at
        a step on its disk or before a sync of it."""
        if name in self.processes:
            return
        environment = dict(os.environ, LD_PRELOAD=self.power, POWER_FOLDER=self.path("disk", name), POWER_BEFORE=self.path("before", name))
        environment["CLUSTER_LEAVE_OUT"] = str(self.leave_out)
        if at is not None:
            environment["CLUSTER_AT"] = "%d:%d%s" % (at + (":stop" if hold else "",))
        if step is not None:
            environment["POWER_AT"] = str(step)
        if sync is not None:
            environment["POWER_SYNC"] = str(sync)
        what = {"m": "machine", "l": "leader", "c": "client"}[name[0]]
        more = {"machine": [], "leader": ["--leaders", str(self.leader_count)] + self.options, "client": ["--updates", "100"]}[what]
        with open(self.path("said", name), "ab") as said:
            self.processes[name] = subprocess.Popen(self.command(what, name, *more), stdout=said, stderr=said, stdin=subprocess.DEVNULL,
                                                    env=environment)

    def start_all(self, **aims):
        """Starts all that do not run, in any order."""
        names = [name for name in self.names() if name not in self.processes]
        self.random.shuffle(names)
        for name in names:
            self.start(name, **aims.get(name, {}))

    def kill(self, names):
        """kill -9, all at once."""
        names = [name for name in names if name in self.processes]
        for name in names:
            self.processes[name].send_signal(signal.SIGKILL)
        for name in names:
            self.ended(name, self.processes.pop(name).wait())

    def ended(self, name, status):
        """Nobody ends but by a kill, and the client when it is done."""
        if status == -signal.SIGKILL:
            self.kills += 1
        elif status != 0 or name != CLIENT:
            raise Failure("%s ended with %d: %s" % (name, status, self.said(name)[-300:]))

    def reap(self):
        """Those that died where they were aimed at."""
        dead = [name for name, process in self.processes.items() if process.poll() is not None]
        for name in dead:
            self.ended(name, self.processes.pop(name).returncode)
        return dead

    def alive(self):
        return list(self.processes)

    def said(self, name):
        try:
            with open(self.path("said", name), errors="replace") as file:
                return file.read()
        except FileNotFoundError:
            return ""

    def lose_power(self, names, harsh):
        """What is not on the disks of these is lost or torn."""
        for name in names:
            if name not in self.processes:
                self.cuts += disk.cut_power(self.path("disk", name), self.path("before", name), self.random, harsh)

    def wait_for(self, what, seconds=LIMIT):
        """Waits until what() is true; whether it came to be."""
        end = time.monotonic() + seconds
        while not what():
            if time.monotonic() > end:
                return False
            time.sleep(0.004)
        return True

    def stop(self):
        for process in self.processes.values():
            process.kill()
            process.wait()
        if self.load is not None:
            self.load.stop()

    # ---- What must hold

    def views(self):
        return {node: disk.views(self.path("disk", "m%d" % node)) for node in range(self.nodes)}

    def serves(self, seconds=LIMIT):
        """All machines are back: each shard stores an update within the time."""
        began = time.monotonic()
        if not self.load.wait_all(seconds):
            raise Failure("no service in %g s with all machines back; shards that store: %s\n%s"
                          % (seconds, self.load.answered(), "\n".join("%s: %s" % (name, self.said(name)[-400:]) for name in self.names())))
        return time.monotonic() - began

    def check(self):
        """Every update that was told to be stored is in the log of every member of its shard. Gives the served view's number."""
        while True:
            told = [of + more for of, more in zip(self.load.snapshot(), self.told_to_client())]
            before = [disk.read(self.path("disk", name), "views") for name in self.machines()]
            failure = None
            try:
                number = self.look(told)
            except Failure as found:
                failure = found
            # another view may be made while we look
            if before == [disk.read(self.path("disk", name), "views") for name in self.machines()]:
                break
        if failure is not None:
            raise failure
        if number < self.view:
            raise Failure("view %d after view %d" % (number, self.view))
        self.view = number
        return number

    def look(self, told):
        """Looks at all disks once; gives the greatest sure view's number."""
        views = self.views()
        newest = max((sure for sure, _ in views.values() if sure is not None), key=lambda view: view.number)
        for shard in range(self.shards):
            logs, bases = {}, set()
            for node in range(self.nodes):
                if newest.masks[shard] >> node & 1:
                    sure, opened = views[node]
                    of = [view for view in (sure, opened) if view is not None and (view.number, view.members) == (newest.number, newest.members)]
                    if not of:
                        raise Failure("machine %d of shard %d has not view %d" % (node, shard, newest.number))
                    logs[node] = disk.Log(self.path("disk", "m%d" % node), of[0].log(shard), shard)
                    bases.add(of[0].base[shard])
            if len(bases) != 1:
                raise Failure("shard %d: its members' logs of view %d begin at %s" % (shard, newest.number, sorted(bases)))
            self.chains[shard].check(shard, bases.pop(), logs, told[shard])
        return newest.number

    def told_to_client(self):
        """What the client that is a process says that was stored."""
        path = self.path("said", CLIENT)
        if os.path.exists(path):
            with open(path) as file:
                file.seek(self.read_of_client)
                text = file.read()
            whole = text[: text.rfind("\n") + 1]
            self.read_of_client += len(whole)
            for shard, client, number, player, score in STORED_LINE.findall(whole):
                self.client_told[int(shard)].append((int(client), int(number), int(player), int(score)))
        return self.client_told

    def image(self, name):
        """A copy of a stopped machine's disk."""
        kept = self.path("image", name)
        shutil.rmtree(kept, ignore_errors=True)
        shutil.copytree(self.path("disk", name), kept)

    def set_back(self, name):
        shutil.rmtree(self.path("disk", name))
        shutil.copytree(self.path("image", name), self.path("disk", name))


class Chain:
    """The updates of a shard up to the base of the served view, which no later restart may change."""

    def __init__(self):
        self.known, self.ends, self.end = {}, {(0, 0): (0, 0)}, (0, 0)  # updates by position; count and sum up to each position; the last
        self.settled = set()  # told to be stored, and found in the chain

    def check(self, shard, base, logs, told):
        for node, log in sorted(logs.items(), key=lambda item: item[1].end):
            if not log.good:
                raise Failure("machine %d: no good log of shard %d" % (node, shard))
            self.follow("machine %d, shard %d: " % (node, shard), base, log)
        told = [update for update in told if update not in self.settled]
        found = set(self.known.values())
        for node, log in logs.items():
            behind = {log.updates[position] for position in log.updates if position > base}
            lost = [update for update in told if update not in found and update not in behind and not log.packed(update)]
            if lost:
                raise Failure("lost on machine %d, shard %d: %d updates that were told to be stored, the first %s (packed up to %s, base %s, log up "
                              "to %s)" % (node, shard, len(lost), lost[0], log.end, base, max(log.updates, default=log.end)))
        self.settled |= {update for update in told if update in found or all(log.packed(update) for log in logs.values())}

    def follow(self, what, base, log):
        """What a log has up to the base is the chain, or goes on from it."""
        if log.end > self.end:  # more than one restart since the last look: what was packed meanwhile is known by its scores alone
            if log.count <= self.ends[self.end][0]:
                raise Failure(what + "fewer updates are packed up to %s than were there before" % (log.end,))
            self.ends[log.end], self.end = (log.count, log.sum), log.end
        if self.ends.get(log.end) != (log.count, log.sum):
            raise Failure(what + "what is packed up to %s is not what was stored" % (log.end,))
        (count, total), at, numbers = self.ends[log.end], log.end, list(log.numbers)
        for position, update in sorted(log.updates.items()):
            if update[1] <= numbers[update[0]]:
                raise Failure(what + "%s at %s is carried out twice" % (update, position))
            numbers[update[0]] = update[1]
            if position > base:
                continue
            count, total, at = count + 1, disk.folded(total, position, update), position
            if position > self.end:
                self.known[position], self.ends[position], self.end = update, (count, total), position
            elif self.known.get(position, update) != update or self.ends.get(position, (count, total)) != (count, total):
                raise Failure(what + "%s has %s, which is not what was stored" % (position, update))
        if at != base:
            raise Failure(what + "the log ends at %s and not at the base %s" % (at, base))


class Load:
    """Clients, each with one update on its way: it waits to be told that it is stored before it goes on to the next."""

    def __init__(self, room, nodes, shards, clients=6, pause=0.01, seed=1):
        self.room, self.nodes, self.shards, self.pause = room, nodes, shards, pause
        self.random, self.lock, self.running = random.Random(seed), threading.Lock(), True
        self.told = [[] for _ in range(shards)]  # (client, number, player, score), in the order in which they were told
        self.first = [0] * shards
        self.since, self.fresh = 0.0, set()
        os.chdir(room)  # sockets have their address as a name
        self.clients = [Client(self, index) for index in range(clients)]
        self.thread = threading.Thread(target=self.run, daemon=True)
        self.thread.start()

    def run(self):
        sockets = {client.socket: client for client in self.clients}
        while self.running:
            for ready in select.select(list(sockets), [], [], 0.004)[0]:
                sockets[ready].hear()
            now = time.monotonic()
            for client in self.clients:
                client.tick(now)

    def stop(self):
        self.running = False
        self.thread.join()
        for client in self.clients:
            client.socket.close()

    def snapshot(self):
        with self.lock:
            return [list(updates) for updates in self.told]

    def count(self):
        with self.lock:
            return sum(map(len, self.told))

    def begin(self):
        """From now on a shard counts as served once an update was told that is sent from now on."""
        with self.lock:
            self.since, self.fresh = time.monotonic(), set()

    def answered(self):
        with self.lock:
            return sorted(self.fresh)

    def wait_all(self, seconds):
        end = time.monotonic() + seconds
        while len(self.answered()) < self.shards:
            if time.monotonic() > end:
                return False
            time.sleep(0.004)
        return True


class Client:
    def __init__(self, load, index):
        self.load, self.index, self.number = load, index, 0
        self.socket = socket.socket(socket.AF_UNIX, socket.SOCK_DGRAM)
        self.socket.setblocking(False)
        name = str(CLIENTS_AT + index)
        if os.path.exists(name):
            os.remove(name)
        self.socket.bind(name)
        self.next(time.monotonic())

    def next(self, now):
        self.number += 1
        self.shard = (self.index + self.number) % self.load.shards
        # each client has ten players, whose scores rise and have a mark
        self.update = (self.index, self.number, self.index * 10 + self.number // self.load.shards % 10, disk.MARK + self.number)
        self.ready, self.began, self.sent = now + self.load.pause, None, 0.0

    def tick(self, now):
        if now < self.ready or now - self.sent < 0.03:
            return
        if self.began is None:
            self.began = now
        elif self.load.random.random() < 0.5:  # not heard: somebody else may know
            self.load.first[self.shard] = self.load.random.randrange(self.load.nodes)
        self.send(now)

    def send(self, now):
        self.sent = now
        _, number, player, score = self.update
        try:
            self.socket.sendto(struct.pack("<7I", WRITE, 0, 0, self.shard, number, player, score), str(self.load.first[self.shard]))
        except OSError:  # nobody is there
            pass

    def hear(self):
        try:
            data = self.socket.recv(65536)
        except OSError:
            return
        words = disk.words_of(data)
        if len(words) >= 5 and words[0] == STORED and words[3:5] == (self.shard, self.number):
            with self.load.lock:
                self.load.told[self.shard].append(self.update)
                if self.began is not None and self.began >= self.load.since:
                    self.load.fresh.add(self.shard)
            self.next(time.monotonic())
        elif len(words) >= 5 and words[0] == MOVED and words[3] == self.shard and self.began is not None:
            self.load.first[self.shard] = words[4] % self.load.nodes
            self.send(time.monotonic())
