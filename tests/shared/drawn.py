"""Groups with the titles that their events have in a picture, and random scripts to draw."""
from .group import Group


class Drawn(Group):
    """A group with the titles that its events have in a picture."""

    def __init__(self, nodes):
        super().__init__(nodes)
        self.titles = [[] for _ in self.nodes]  # of the frames that each node made
        self.arrows, self.grounds = [], []
        self.arrived = set()

    def take(self, index, kind, node=None, *rest):
        if kind == "settle":
            self.grounds.append(f"settle, event {index}")
            self.round(index)
            self.round(index)
        elif kind == "crash":
            self.crash(node)
        elif kind == "order":
            self.order(node)
        elif kind == "arrive":
            self.bring(index, node, *rest)
        else:
            self.put(index, kind, node, *rest)

    def put(self, index, kind, node, to, slot):
        seq = self.make(kind, node, to, slot)
        pair = self.made[node][seq][2]
        words = f"slot {slot}, message {pair[0]}.{pair[1]}" if pair else f"acknowledges slot {slot}"
        self.titles[node].append(f"frame {seq} of node {node} to node {to}: {words}, made by event {index}")
        return seq

    def bring(self, index, maker, seq):
        self.arrived.add((maker, seq))
        self.arrows.append(f"{self.titles[maker][seq]}, arrives by event {index}")
        self.arrive(maker, seq)

    def round(self, index):
        for p, q, slot in self.owed():
            self.bring(index, p, self.put(index, "send", p, q, slot))
            self.bring(index, q, self.put(index, "ack", q, p, slot))

    def stubs(self):
        frames = ((node, seq, title) for node in self.nodes for seq, title in enumerate(self.titles[node]))
        return [f"{title}, never arrives" for node, seq, title in frames if (node, seq) not in self.arrived]


def random_item(draw):
    kind = draw.choices(["data", "propose", "close"], [12, 6, 1])[0]
    if kind == "propose":
        return ["propose", draw.choice([draw.randrange(4), 2**64 - 1]), draw.choice([draw.randrange(9), 2**64 - 1])]
    letters = draw.choice([b"abc <&>\"'", b"\x00\xff\x7f&a", bytes(range(32, 127))])
    if kind == "close":
        return ["close"]
    return ["data", bytes(draw.choice(letters) for _ in range(draw.choice([0, 1, 3, 8, 9, 40]))).hex()]


def random_event(draw, group, nodes):
    """An event that is likely to be accepted, or one that need not be."""
    node, other = draw.randrange(nodes), draw.randrange(nodes)
    kind = draw.choices(["order", "send", "ack", "arrive", "crash", "settle"], [8, 12, 4, 18, 0.4, 0.4])[0]
    if kind == "order":
        return ["order", node, *random_item(draw)]
    if kind == "crash" or kind == "settle":
        return ["crash", draw.choice([node, node, 200])] if kind == "crash" else ["settle"]
    if draw.random() < 0.05:
        return ["arrive", node, draw.randrange(9)] if kind == "arrive" else [kind, node, other, draw.randrange(9)]
    if kind == "arrive":
        frames = [(p, seq) for p in group.nodes for seq in range(len(group.made[p]))]
        return ["arrive", *draw.choice(frames[-12:])] if frames else ["arrive", node, 0]
    slots = [(p, q, slot) for (p, q), given in group.given.items() for slot in range(len(given)) if slot not in group.acked[p, q]]
    if kind == "ack":
        slots = [(q, p, slot) for (p, q), taken in group.taken.items() for slot in taken]
    return [kind, *draw.choice(slots)] if slots else ["order", node, *random_item(draw)]


def random_script(draw, count):
    nodes = draw.choice([1, 2, 3, 4, 5, 8, 16])
    uniform = draw.random() < 0.3
    group, closed, proposed, events = Drawn(nodes), set(), set(), []
    for index in range(count):
        event = random_event(draw, group, nodes)
        kind, *places = event
        events.append(event)
        settled = kind == "settle"
        node = 0 if settled else places[0]
        fits = settled or node < nodes and group.live[node] or kind == "arrive"
        if kind == "order" and fits:
            fits = node not in closed and (places[1] != "propose" or (node, places[2]) not in proposed)
            if fits and places[1] == "close":
                closed.add(node)
            if fits and places[1] == "propose":
                proposed.add((node, places[2]))
        elif kind in ("send", "ack") and fits:
            link = (node, places[1])
            fits = node != places[1] and (
                places[2] < len(group.given[link]) and places[2] not in group.acked[link]
                if kind == "send"
                else places[2] in group.taken[places[1], node]
            )
        elif kind == "arrive" and fits:
            fits = node < nodes and places[1] < len(group.made[node]) and group.live[group.made[node][places[1]][0]]
        if fits:
            group.take(index, kind, *places)
    return {
        "nodes": nodes,
        "faults": draw.randint(0, (nodes - 1) // 2 if uniform else nodes - 1),
        "choices": draw.randint(1, nodes),
        "mode": "uniform" if uniform else "basic",
        "events": events,
    }
