#!/usr/bin/env python3
"""A small broadcast over sockets of the loopback, which logs a record that `castgroup judge` reads.

usage: broadcast.py RECORD               the record is good
       broadcast.py --faulty RECORD      members deliver an item when it arrives, and not in its turn: the record is bad
       broadcast.py --judge [--faulty] RECORD      each line is also judged as it is logged, and the verdict is written; this takes the
                                         module castgroup (bindings/python)
       broadcast.py [--faulty] --files FOLDER      each member writes a file of its own, which `castgroup merge` merges

Each member is a thread with a UDP socket. It sends its items to the others, and repeats what they don't acknowledge. The first
datagrams of one item are lost on purpose, since the loopback seldom loses any; so later items arrive before it.
"""
import os
import socket
import sys
import threading
import time

MEMBERS, ITEMS, LOST_ITEM = 3, 5, 1
RESEND_SECONDS, PATIENCE_SECONDS = 0.05, 30
# No crash is tolerated, and nothing is agreed on.
HEAD = f"cast/1 {MEMBERS} 0 1"


class Log:
    """What the members log, a line for each event."""

    def broadcast(self, member, item):
        """Call this before the item is sent."""
        self.log(member, f"b {member} {number_in(item)} data:{item.hex()}")

    def deliver(self, member, sender, item):
        """Call this where the application gets the item."""
        self.log(member, f"d {member} {sender} {number_in(item)} data:{item.hex()}")


class Record(Log):
    """One record. All members share one lock, so that the lines have one order."""

    def __init__(self, path, judge=None):
        self.path, self.lock, self.judge, self.lines = path, threading.Lock(), judge, []
        self.put(HEAD)

    def log(self, _member, line):
        with self.lock:
            self.put(line)

    def put(self, line):
        self.lines.append(line + "\n")
        if self.judge:
            self.judge.feed(self.lines[-1].encode())

    def finish(self, _members):
        """Call this when no member logs any more."""
        self.put("end")
        with open(self.path, "w", encoding="ascii") as file:
            file.writelines(self.lines)


class Files(Log):
    """A file for each member, as if it were a process. The members share no lock."""

    def __init__(self, folder):
        os.makedirs(folder, exist_ok=True)
        paths = [f"{folder}/{member}.record" for member in range(MEMBERS)]
        # Each line goes to the operating system at once, so that a process that is killed loses none.
        self.files = [open(path, "w", buffering=1, encoding="ascii") for path in paths]
        for file in self.files:
            file.write(HEAD + "\n")

    def log(self, member, line):
        self.files[member].write(line + "\n")

    def finish(self, members):
        """Ends the files of those that log no more."""
        for member, file in zip(members, self.files):
            if not member.is_alive():
                file.write("end\n")
                file.close()


def number_in(item):
    """The item's number, from its bytes: a callback gets only these."""
    return int(item.split()[0])


class Member(threading.Thread):
    def __init__(self, me, record, is_faulty):
        super().__init__(daemon=True)
        self.me, self.record, self.is_faulty = me, record, is_faulty
        self.socket = socket.socket(socket.AF_INET, socket.SOCK_DGRAM)
        self.socket.bind(("127.0.0.1", 0))
        self.socket.settimeout(RESEND_SECONDS)
        self.items = [f"{number} of member {me}".encode() for number in range(ITEMS)]
        self.taken = [{} for _ in range(MEMBERS)]  # by sender: its items that arrived, by number
        self.delivered = [0] * MEMBERS  # by sender

    def join_group(self, members):
        self.members = members
        self.owed = {(peer, number) for peer in range(MEMBERS) for number in range(ITEMS) if peer != self.me}

    def has_finished(self):
        return not self.owed and self.delivered == [ITEMS] * MEMBERS

    def run(self):
        for number, item in enumerate(self.items):
            self.record.broadcast(self.me, item)
            self.take(self.me, number, item)
            if number != LOST_ITEM:
                self.send_owed(number)
        while not all(member.has_finished() for member in self.members):
            try:
                self.receive(self.socket.recv(2048))
            except TimeoutError:
                for number in range(ITEMS):
                    self.send_owed(number)

    def send_owed(self, number):
        for peer, owed in sorted(self.owed):
            if owed == number:
                self.send(peer, b"item", number, self.items[number])

    def send(self, peer, kind, number, item=b""):
        datagram = b"%s %d %d " % (kind, self.me, number) + item
        self.socket.sendto(datagram, self.members[peer].socket.getsockname())

    def receive(self, datagram):
        kind, sender, number, item = datagram.split(b" ", 3)
        sender, number = int(sender), int(number)
        if kind == b"took":
            self.owed.discard((sender, number))
            return
        self.send(sender, b"took", number)
        if number not in self.taken[sender]:
            self.take(sender, number, item)

    def take(self, sender, number, item):
        self.taken[sender][number] = item
        if self.is_faulty:
            self.deliver(sender, item)
            return
        while self.delivered[sender] in self.taken[sender]:
            self.deliver(sender, self.taken[sender][self.delivered[sender]])

    def deliver(self, sender, item):
        """The callback."""
        self.record.deliver(self.me, sender, item)
        self.delivered[sender] += 1


def make_judge():
    import castgroup

    return castgroup.Judge()


CHOICES = ([], ["--faulty"], ["--judge"], ["--judge", "--faulty"], ["--files"], ["--faulty", "--files"])


def main():
    *options, path = sys.argv[1:] or [""]
    if options not in CHOICES or not path or path.startswith("-"):
        sys.exit(__doc__)
    judge = make_judge() if "--judge" in options else None
    record = Files(path) if "--files" in options else Record(path, judge)
    members = [Member(me, record, "--faulty" in options) for me in range(MEMBERS)]
    for member in members:
        member.join_group(members)
    for member in members:
        member.start()
    end = time.monotonic() + PATIENCE_SECONDS
    for member in members:
        member.join(max(0, end - time.monotonic()))
    record.finish(members)
    if judge:
        verdict = judge.finish()
        print("good" if verdict.good else f"bad {verdict.line} {verdict.rule}")
    if any(member.is_alive() for member in members):
        sys.exit(f"the members had not finished after {PATIENCE_SECONDS} seconds")


if __name__ == "__main__":
    main()
