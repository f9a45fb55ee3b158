#!/usr/bin/env python3
"""A process of a group over UDP: a peer that the test driver plays, with a socket, a clock and a log file around it.

usage: udp_node.py DRIVER CONFIG GROUP ME FOLDER SOCKET PORTS SEED ITEMS LOSS END

CONFIG is as the driver reads it, SOCKET the number of a bound socket, and PORTS those of all nodes, with commas. It orders ITEMS items.
Of each hundred packets LOSS get lost here; some go out twice or late. It kills itself by SIGKILL when it has sent END packets, if that
is above 0. FOLDER/ME.log is the node's log, and FOLDER/ME.out has what the peer delivers and decides. Standard input has a line
`gone NODE` for each node that was killed, and `stop`. Standard output has a line with the node and `ready`, `quiet`, `busy`, `gone`
or `dying`.
"""
import heapq
import os
import random
import selectors
import signal
import socket
import sys
import time

from peers import Driver, packet_of

TICK = 0.01
LONGEST_DELAY = 0.03
# The most packets that are taken in a turn, and the most items that are ordered and not yet delivered.
AT_ONCE = 64
AHEAD = 8


def items_of(draw, count):
    """The words of the items: bytes, a proposal in each of five instances, and sometimes a close."""
    items = [f"data:{draw.randbytes(draw.randrange(20)).hex()}" for _ in range(count)]
    items += [f"prop:{instance}:{draw.randrange(100)}" for instance in range(5)]
    draw.shuffle(items)
    return items + ["close"] * draw.randrange(2)


class Network:
    """The socket, which loses, repeats and delays packets."""

    def __init__(self, number, ports, draw, loss, die):
        self.socket = socket.socket(fileno=number)
        self.socket.setblocking(False)
        self.addresses = [("127.0.0.1", port) for port in ports]
        self.draw, self.loss, self.late, self.gone, self.left, self.die = draw, loss, [], set(), 0, die

    def send(self, to, packet):
        if self.draw.randrange(100) < self.loss:
            return
        for _copy in range(1 + (self.draw.random() < 0.1)):
            late = self.draw.random() < 0.2
            due = time.monotonic() + late * self.draw.uniform(0, LONGEST_DELAY)
            heapq.heappush(self.late, (due, to, packet))
        self.send_due()

    def send_due(self):
        while self.late and self.late[0][0] <= time.monotonic():
            _due, to, packet = heapq.heappop(self.late)
            try:
                self.socket.sendto(packet, self.addresses[to])
            except OSError:
                pass  # it is lost
            self.left -= 1
            if self.left == 0:
                self.die()

    def received(self):
        for _packet in range(AT_ONCE):
            try:
                packet, address = self.socket.recvfrom(2048)
            except OSError:
                return
            if address not in self.gone:
                yield packet


class Node:
    def __init__(self, words):
        driver, config, group, self.me, folder, number, ports, seed, count, loss, end = words
        self.draw = random.Random(f"{seed} {self.me}")
        # A process that starts again finds the log of the first, and ends.
        self.log = open_new(f"{folder}/{self.me}.log")
        self.told = open_new(f"{folder}/{self.me}.out")
        self.peer = Driver(driver, config, int(group), int(self.me))
        self.save(self.peer.lines)
        self.network = Network(int(number), [int(port) for port in ports.split(",")], self.draw, int(loss), self.die)
        self.network.left = int(end)
        self.items = items_of(self.draw, int(count))
        self.delivered = self.ordered = 0
        self.is_quiet, self.next_tick = False, time.monotonic() + TICK

    def save(self, lines):
        os.write(self.log, "".join(line + "\n" for line in lines).encode())

    def report(self, word):
        os.write(1, f"{self.me} {word}\n".encode())

    def die(self):
        self.report("dying")
        os.killpg(0, signal.SIGKILL)

    def orders(self):
        while self.ordered < len(self.items) and self.ordered < self.delivered + AHEAD:
            yield f"order {self.items[self.ordered]}"
            self.ordered += 1

    def calls(self):
        if time.monotonic() >= self.next_tick:
            self.next_tick += TICK
            yield "tick"
        yield from (f"receive {packet.hex()}" for packet in self.network.received())
        yield from self.orders()

    def turn(self):
        """Takes what came, and then sends and tells what the peer gives, until it has no more to give."""
        *_answers, (_shown, quiet) = self.peer.ask_all([*self.calls(), "quiet"])
        self.change(quiet == "yes")
        sent = True
        while sent:
            # The peer gives out no packet whose entry is not saved: those of the lines that come with these are sent the next time.
            (packets, said), (lines, count) = self.peer.ask_all(["packets", "lines"])
            for packet in packets:
                self.network.send(*packet_of(packet))
            self.save(lines)
            (news, _), (_shown, quiet) = self.peer.ask_all([f"saved {count}", "news", "quiet"])[1:]
            self.tell(news)
            sent = said == "save" or lines
        self.change(quiet == "yes")
        self.network.send_due()

    def tell(self, news):
        os.write(self.told, "".join(line + "\n" for line in news).encode())
        self.delivered += sum(line.startswith(f"d {self.me} ") for line in news)

    def change(self, is_quiet):
        """Reports whether all is ordered and nothing is owed, before any packet that others get later."""
        is_quiet = is_quiet and self.ordered == len(self.items)
        if is_quiet != self.is_quiet:
            self.report("quiet" if is_quiet else "busy")
        self.is_quiet = is_quiet

    def give_up(self, node):
        self.network.gone.add(self.network.addresses[node])
        self.peer.ask(f"give-up {node}")
        self.report("gone")
        self.report("quiet" if self.is_quiet else "busy")

    def run(self):
        waiting = selectors.DefaultSelector()
        waiting.register(self.network.socket, selectors.EVENT_READ)
        waiting.register(0, selectors.EVENT_READ)
        self.report("ready")
        while True:
            ready = waiting.select(max(0, min(TICK, self.next_tick - time.monotonic())))
            if any(key.fileobj == 0 for key, _events in ready):
                for line in os.read(0, 4096).decode().splitlines():
                    if line == "stop":
                        return self.stop()
                    self.give_up(int(line.split(" ")[1]))
            self.turn()

    def stop(self):
        self.save(self.peer.ask("end")[0])
        return self.peer.close()


def open_new(path):
    return os.open(path, os.O_WRONLY | os.O_CREAT | os.O_EXCL, 0o644)


if __name__ == "__main__":
    sys.exit(Node(sys.argv[1:]).run())
