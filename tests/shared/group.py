"""What a group holds, gives and makes, for tests that follow it by accepted events, each given by its words in a script."""


class Group:
    def __init__(self, nodes):
        self.nodes = range(nodes)
        self.live = [True] * nodes
        self.orders = [0] * nodes
        self.held = [set() for _ in self.nodes]
        self.given = {(p, q): [] for p in self.nodes for q in self.nodes if p != q}
        self.taken = {link: set() for link in self.given}
        self.acked = {link: set() for link in self.given}
        self.made = [[] for _ in self.nodes]  # by maker: target, slot, and the pair that the frame carries, if any

    def order(self, node):
        self.hold(node, (node, self.orders[node]), node)
        self.orders[node] += 1

    def hold(self, node, pair, source):
        if pair not in self.held[node]:
            self.held[node].add(pair)
            for other in self.nodes:
                if other not in (node, pair[0], source):
                    self.given[node, other].append(pair)

    def make(self, kind, node, to, slot):
        """Makes a frame for a send or an acknowledgement. Returns its number."""
        self.made[node].append((to, slot, self.given[node, to][slot] if kind == "send" else None))
        return len(self.made[node]) - 1

    def arrive(self, maker, seq):
        """Returns the node at which the frame arrives."""
        to, slot, pair = self.made[maker][seq]
        if pair:
            self.taken[maker, to].add(slot)
            self.hold(to, pair, maker)
        else:
            self.acked[to, maker].add(slot)
        return to

    def crash(self, node):
        self.live[node] = False

    def owed(self):
        """The slots that a live node owes a live node, in the order in which a round takes them."""
        live = [(p, q) for p, q in self.given if self.live[p] and self.live[q]]
        return [(p, q, slot) for p, q in live for slot in range(len(self.given[p, q])) if slot not in self.acked[p, q]]


def replayed(events, nodes):
    """For each node, how many of the events are its own steps, except a crash; and whether they leave the group at rest."""
    group, steps = Group(nodes), [0] * nodes
    for kind, node, *rest in events:
        if kind == "crash":
            group.crash(node)
            continue
        if kind == "order":
            group.order(node)
        elif kind == "arrive":
            node = group.arrive(node, *rest)
        else:
            group.make(kind, node, *rest)
        steps[node] += 1
    return steps, not group.owed()
