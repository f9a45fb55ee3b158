#!/usr/bin/env python3
"""A node of a group in a process of its own, over UDP on the loopback: a peer, with a socket, a clock and a log file around it.

usage: udp.py GROUP ME PORTS LOG ITEMS      node ME of as many nodes as there are PORTS, with commas between them

It takes the module castgroup (bindings/python), and bindings/rust/examples/udp.rs does the same in Rust. So this is a group:

    python3 udp.py 8731 0 5000,5001,5002 0.log 3 &
    python3 udp.py 8731 1 5000,5001,5002 1.log 3 &
    python3 udp.py 8731 2 5000,5001,5002 2.log 3; wait
    castgroup merge 0.log 1.log 2.log

The node broadcasts ITEMS items, at least one, and writes a line for each item that it delivers. It ends once it owes nothing to any
node that answers, and nothing came for a second. What such a program must keep:

1. The log comes first: `save` writes its new lines and tells the peer, which gives out packets and news only then.
2. Each number runs once: the log file must be new, so a process that starts again fails. Its node has crashed.
3. Each start of a group has a new GROUP, drawn at random. A peer drops the packets of another start.
4. A packet is a datagram. It may get lost, or come twice or late.
5. Ticks are the program's: what isn't acknowledged is sent again after some of them.
"""
import asyncio
import sys
import time

import castgroup

TICK = 0.01
# A packet is sent again after 64 ticks at the latest. So after this time without one, none is under way.
LINGER = 1.0
# A node that was not heard of for so long is given up for good. That may be a mistake: no promise depends on it.
PATIENCE = 10.0
# The most items that are ordered and not yet delivered.
AHEAD = 8


class Network(asyncio.DatagramProtocol):
    """What came, and when each node was heard of. All else is done outside of callbacks, so that a failure ends the process."""

    def __init__(self, addresses):
        self.addresses, self.came, self.is_awake = addresses, [], asyncio.Event()
        self.heard = dict.fromkeys(addresses, time.monotonic())

    def connection_made(self, transport):
        self.transport = transport

    def datagram_received(self, data, address):
        self.heard[address] = time.monotonic()
        self.came.append(data)
        self.is_awake.set()

    async def wait(self):
        """Waits until a packet came, or a tick is over."""
        try:
            await asyncio.wait_for(self.is_awake.wait(), TICK)
        except asyncio.TimeoutError:
            pass
        self.is_awake.clear()

    def silence_of(self, node):
        return time.monotonic() - self.heard[self.addresses[node]]


class Node:
    def __init__(self, peer, network, log, items):
        self.peer, self.network, self.log, self.items = peer, network, log, items
        self.others = [node for node in range(len(network.addresses)) if node != peer.me]
        self.ordered = self.delivered = 0
        self.next_tick = time.monotonic() + TICK

    def turn(self):
        """Takes what came; then sends, saves and takes the news, until there is nothing to send and nothing to save."""
        for data in self.network.came:
            try:
                self.peer.receive(data)
            except castgroup.Dropped as why:
                print(why, file=sys.stderr)
        self.network.came.clear()
        while self.ordered < self.items and self.ordered < self.delivered + AHEAD:
            self.peer.order(f"item {self.ordered} of node {self.peer.me}".encode())
            self.ordered += 1
        while True:
            for packet in self.peer.packets():
                self.network.transport.sendto(packet.data, self.network.addresses[packet.to])
            if not self.peer.save(self.log.write):
                break
        for news in self.peer.news():
            if isinstance(news, castgroup.Delivered):
                self.delivered += news.sender == self.peer.me
                print(f"{news.sender} {news.number} {news.item.decode()}", flush=True)

    def tick(self):
        if time.monotonic() < self.next_tick:
            return
        self.next_tick = time.monotonic() + TICK
        self.peer.tick()
        for node in self.others:
            if self.network.silence_of(node) > PATIENCE:
                self.peer.give_up(node)

    def has_ended(self):
        is_silent = all(self.network.silence_of(node) > LINGER for node in self.others)
        return is_silent and self.delivered == self.items and self.peer.is_quiet


async def run(group, me, ports, path, items):
    addresses = [("127.0.0.1", port) for port in ports]
    with open(path, "xb", buffering=0) as log, castgroup.Peer(len(ports), (len(ports) - 1) // 2, group, me) as peer:
        loop = asyncio.get_running_loop()
        transport, network = await loop.create_datagram_endpoint(lambda: Network(addresses), local_addr=addresses[me])
        node = Node(peer, network, log, items)
        while not node.has_ended():
            node.turn()
            await network.wait()
            node.tick()
        transport.close()
        log.write(castgroup.LOG_END)


def main():
    if len(sys.argv) != 6:
        sys.exit(__doc__)
    group, me, ports, path, items = sys.argv[1:]
    asyncio.run(run(int(group), int(me), [int(port) for port in ports.split(",")], path, int(items)))


if __name__ == "__main__":
    main()
