"""Logs of a group's nodes, as `merge` reads them, and a model of the group in basic mode that says what each step does."""
from .group import Group


class Told(Group):
    """A group that delivers and decides, and refuses what every group refuses."""

    def __init__(self, nodes, faults):
        super().__init__(nodes)
        self.faults = faults
        self.items = [[] for _ in self.nodes]
        self.delivered = [[0] * nodes for _ in self.nodes]
        self.votes = [{} for _ in self.nodes]

    def step(self, node, kind, *rest):
        """What the step delivers and decides, in the words of a log; None if it is refused."""
        if not self.live[node] or not self.may(node, kind, *rest):
            return None
        if kind == "order":
            self.items[node].append(rest[0])
            self.order(node)
        elif kind == "arrive":
            self.arrive(*rest)
        elif kind == "crash":
            self.crash(node)
            return ""
        else:
            self.make(kind, node, *rest)
            return ""
        return "".join(self.news(node))

    def may(self, node, kind, *rest):
        if kind == "order":
            word = rest[0]
            closed = self.items[node][-1:] == ["close"]
            again = word.startswith("prop:") and any(instance(item) == instance(word) for item in self.items[node])
            return not closed and not again
        if kind == "crash":
            return True
        peer, number = rest
        if peer not in self.nodes or peer == node:
            return False
        if kind == "send":
            return number < len(self.given[node, peer]) and number not in self.acked[node, peer]
        if kind == "ack":
            return number in self.taken[peer, node]
        return number < len(self.made[peer]) and self.made[peer][number][0] == node

    def news(self, node):
        for sender in self.nodes:
            decisions = []
            while (sender, self.delivered[node][sender]) in self.held[node]:
                number = self.delivered[node][sender]
                item = self.items[sender][number]
                self.delivered[node][sender] += 1
                yield f" d {sender} {number} {item}"
                decisions += self.vote(node, item)
            yield from decisions

    def vote(self, node, item):
        if not item.startswith("prop:"):
            return []
        of = instance(item)
        votes = self.votes[node].setdefault(of, [])
        votes.append(int(item.split(":")[2]))
        if len(votes) != len(self.nodes) - self.faults:
            return []
        return [f" v {of} {min(votes)}"]


def instance(item):
    return item.split(":")[1] if item.startswith("prop:") else None


def head(nodes, faults, group, node):
    return f"cast-log/1 {nodes} {faults} {max(1, faults + 1)} basic 4096 {group} {node}"


def steps_of(lines):
    """For each line of a log after the first: its place, from 2 on, stamp, step, and the outcome it names."""
    for place, line in enumerate(lines[1:], 2):
        if line == "end":
            continue
        stamp, kind, *words = line.split(" ")
        taken = {"order": 1, "crash": 0}.get(kind, 2)
        step = [kind, *(words[:1] if kind == "order" else map(int, words[:taken]))]
        yield place, int(stamp), step, "".join(" " + word for word in words[taken:])


def misfit(logs, nodes, faults):
    """The log and the line at which such logs don't merge, or None. Each is a list of lines, by node; one without an end has a
    crash after its last line."""
    steps = []
    for node, lines in enumerate(logs):
        last = -1
        for place, stamp, step, came in steps_of(lines):
            if stamp <= last:
                return node, place
            last = stamp
            steps.append((stamp, node, place, step, came))
        if lines[-1] != "end":
            steps.append((max(last, 0), node, len(lines) + 1, ["crash"], ""))
    group = Told(nodes, faults)
    for _stamp, node, place, step, came in sorted(steps, key=lambda step: step[:3]):
        if group.step(node, *step) != came:
            return node, place
    return None


def random_logs(draw, nodes, faults, steps, group):
    """Logs of a group that takes this many random steps. Frames get lost, are repeated or reordered; some node may crash."""
    told, clocks = Told(nodes, faults), [0] * nodes
    logs = [[head(nodes, faults, group, node)] for node in range(nodes)]
    stamps = [[] for _ in range(nodes)]
    crashed = draw.randrange(nodes) if draw.random() < 0.5 else None
    when = draw.randrange(steps)
    for turn in range(steps):
        step = random_step(draw, told, nodes)
        if step is None or step[0] == crashed and turn >= when:
            continue
        node, kind, *rest = step
        sent = stamps[rest[0]][rest[1]] if kind == "arrive" else 0
        came = told.step(node, kind, *rest)
        if came is None:
            continue
        clocks[node] = max(clocks[node], sent) + 1
        if kind in ("send", "ack"):
            stamps[node].append(clocks[node])
        logs[node].append(" ".join(map(str, [clocks[node], kind, *rest])) + came)
    for node in range(nodes):
        if node != crashed:
            logs[node].append("end")
    return logs


def random_step(draw, told, nodes):
    node, peer = draw.randrange(nodes), draw.randrange(nodes)
    kind = draw.choices(["order", "send", "ack", "arrive"], [2, 5, 4, 7])[0]
    if kind == "order":
        item = draw.choice(["data:", f"data:{draw.randbytes(3).hex()}", f"prop:{draw.randrange(3)}:{draw.randrange(9)}"])
        return node, kind, item if draw.random() < 0.98 else "close"
    if node == peer:
        return None
    if kind == "send":
        owed = [slot for slot in range(len(told.given[node, peer])) if slot not in told.acked[node, peer]]
        return (node, kind, peer, draw.choice(owed)) if owed else None
    if kind == "ack":
        taken = sorted(told.taken[peer, node])
        return (node, kind, peer, draw.choice(taken)) if taken else None
    made = [seq for seq, frame in enumerate(told.made[peer]) if frame[0] == node]
    return (node, kind, peer, draw.choice(made)) if made else None
