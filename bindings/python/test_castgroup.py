"""Tests the binding for Python: what it returns, what it refuses, and that calls on a closed handle are safe.

usage: python3 test_castgroup.py [PROGRAM]      with a program, `castgroup run`, `draw`, `judge` and `migrate` must write the
                                                same, and `merge` must take the logs of peers

If hypothesis is installed (python3-hypothesis of Debian), groups and records are tried at random too.
"""
import pickle
import random
import re
import subprocess
import sys
import tempfile
import threading
import time
import unittest
from pathlib import Path

import castgroup
from castgroup import Ack, Arrive, Carry, Close, Crash, Decided, Delivered, Order, Ordered, Peer, Propose, Send, Took, Verdict

try:
    from hypothesis import given, settings, strategies
except ImportError:
    given = None

PROGRAM = sys.argv.pop(1) if len(sys.argv) > 1 else None
SCRIPT = b'{"nodes":3,"faults":1,"choices":2,"events":[["order",0,"data","61"],["send",0,1,0],["arrive",0,0],["settle"]]}'
RECORD = b"cast/1 3 1 2\nb 0 0 data:61\nd 0 0 0 data:61\nd 1 0 0 data:61\nd 2 0 0 data:61\nend\n"


class Records(unittest.TestCase):
    def test_verdicts(self):
        self.assertEqual(castgroup.judge(RECORD), Verdict(0, 0))
        self.assertEqual(castgroup.judge(b""), Verdict(1, 0))
        self.assertEqual(castgroup.judge(b"cast/1 1 0 1\nx 0\nb 0 0 data:61\nend\n"), Verdict(3, 5))

    def test_a_verdict_is_true_of_a_good_record_alone(self):
        good, bad = castgroup.judge(RECORD), castgroup.judge(RECORD[:-4])
        self.assertEqual((bool(good), good.good, str(good)), (True, True, "good"))
        self.assertEqual((bool(bad), bad.good), (False, False))
        self.assertIn("line 6 breaks rule 0 (what is no line", str(bad))

    def test_any_bytes_are_taken(self):
        for kind in (bytes, bytearray, memoryview, lambda data: memoryview(bytearray(data * 2))[: len(data)]):
            record, judge = kind(RECORD), castgroup.Judge()
            self.assertTrue(castgroup.judge(record))
            judge.feed(record)
            self.assertTrue(judge.finish())
        for text in (RECORD.decode(), 5, None, [1]):
            self.assertRaises(TypeError, castgroup.judge, text)
            self.assertRaises(TypeError, castgroup.Judge().feed, text)

    def test_pieces(self):
        numbers = random.Random(1)
        for _ in range(500):
            record = bytearray(RECORD)
            record[numbers.randrange(len(record))] = numbers.choice(b"0129 \nbdx:")
            judge, rest = castgroup.Judge(), bytes(record)
            while rest:
                cut = numbers.randrange(9)
                judge.feed(rest[:cut])
                rest = rest[cut:]
            self.assertEqual(judge.finish(), castgroup.judge(bytes(record)))

    def test_a_judge_answers_after_its_end(self):
        judge = castgroup.Judge()
        judge.finish()
        for call in (judge.finish, lambda: judge.feed(b"a")):
            self.assertRaises(ValueError, call)
        judge.close()
        with castgroup.Judge() as other:
            other.feed(b"cast/1 ")

    def test_a_judge_says_what_it_found_so_far(self):
        judge = castgroup.Judge()
        judge.feed(b"cast/1 2 0 1\n")
        self.assertEqual((judge.so_far(), judge.lines), (None, 1))
        judge.feed(b"d 0 1 0 close\nend\n")
        self.assertEqual((judge.so_far(), judge.lines), ((2, 1), 1))
        self.assertEqual(judge.finish(), (2, 1))
        self.assertRaises(ValueError, judge.so_far)

    def test_the_program_says_the_same(self):
        if PROGRAM is None:
            self.skipTest("no program")
        said = subprocess.run([PROGRAM, "judge"], input=RECORD[:-4], stdout=subprocess.PIPE).stdout
        self.assertEqual(said, b"bad %d %d\n" % castgroup.judge(RECORD[:-4]))


class Texts(unittest.TestCase):
    def test_texts(self):
        self.assertEqual(castgroup.run(SCRIPT), RECORD)
        self.assertTrue(castgroup.draw(SCRIPT).startswith(b"<svg"))
        self.assertNotEqual(castgroup.draw(SCRIPT, 0, 1), castgroup.draw(SCRIPT))
        orders = b",".join([b'["order",0,"data","' + b"61" * 1000 + b'"]'] * 100)
        self.assertGreater(len(castgroup.run(b'{"nodes":1,"faults":0,"choices":1,"events":[' + orders + b"]}")), 400_000)

    def test_any_bytes_are_a_script(self):
        for kind in (bytearray, memoryview):
            self.assertEqual(castgroup.run(kind(SCRIPT)), RECORD)
        self.assertRaises(TypeError, castgroup.run, SCRIPT.decode())
        for picture in (castgroup.draw, castgroup.page):
            self.assertRaises(TypeError, picture, SCRIPT, 1.5)
            self.assertRaises(ValueError, picture, SCRIPT, -1)

    def test_pages(self):
        page = castgroup.page(SCRIPT)
        self.assertTrue(page.startswith(b"<!DOCTYPE html>\n") and page.endswith(b"</html>\n"))
        self.assertNotEqual(castgroup.page(SCRIPT, 0, 1), page)
        self.assertEqual(castgroup.page(memoryview(SCRIPT), 0, 9), page)
        with self.assertRaises(castgroup.BadScript) as caught:
            castgroup.page(SCRIPT.replace(b'"settle"', b"7"))
        self.assertEqual((caught.exception.fault, caught.exception.place), (3, 4))

    def test_migrated_records(self):
        migrated = RECORD.replace(b"cast/1 3 1 2", b"cast/2 3 1 2 basic")
        for kind in (bytes, bytearray, memoryview):
            self.assertEqual(castgroup.migrate(kind(RECORD)), migrated)
        self.assertTrue(castgroup.judge(migrated))
        for record in (b"", migrated, RECORD[:12], RECORD.replace(b"3", b"17", 1)):
            self.assertRaises(castgroup.BadRecord, castgroup.migrate, record)
        for wrong in (RECORD.decode(), 5, None):
            self.assertRaises(TypeError, castgroup.migrate, wrong)

    def test_refused_scripts(self):
        for script, fault in ((b"{", (2, 0)), (b"{}", (3, 0)), (SCRIPT.replace(b'"settle"', b"7"), (3, 4)),
                              (SCRIPT.replace(b'"faults":1', b'"faults":3'), (4, 2)), (b" " * 67_108_865, (1, 0))):
            with self.assertRaises(castgroup.BadScript) as caught:
                castgroup.run(script)
            self.assertEqual((caught.exception.fault, caught.exception.place), fault)

    def test_errors_say_why_and_go_to_another_process(self):
        errors = {
            castgroup.Refused(11): "a frame that was not made (code 11)",
            castgroup.BadConfig(2): "faults must be below nodes (code 2)",
            castgroup.BadScript(3, 4): "element 4 is not of its form",
            castgroup.BadScript(4, 1): "nodes must be from 1 to 64 (code 1)",
            castgroup.BadScript(2, 0): "it is no JSON",
            castgroup.BadRecord(): "does not begin with a head of cast/1",
            castgroup.Closed(): "it was finished or closed",
            castgroup.Dropped(12): "a packet for another node (code 12)",
            castgroup.Ended(): "the log or the clock of the peer is full",
            castgroup.TooLong(): "2^63 bytes",
            castgroup.Refused(99): "no code that is known",
            castgroup.Dropped(99): "no code that is known",
        }
        for error, words in errors.items():
            again = pickle.loads(pickle.dumps(error))
            self.assertIsInstance(error, castgroup.Error)
            self.assertEqual((type(again), vars(again), str(again)), (type(error), vars(error), str(error)))
            self.assertIn(words, str(error))
        self.assertTrue(all(issubclass(kind, ValueError) for kind in (castgroup.BadConfig, castgroup.BadRecord, castgroup.BadScript,
                                                                     castgroup.Closed)))

    def test_the_program_writes_the_same(self):
        if PROGRAM is None:
            self.skipTest("no program")
        for words, make, text in ((["run"], castgroup.run, SCRIPT), (["draw"], castgroup.draw, SCRIPT),
                                  (["draw", "--html"], castgroup.page, SCRIPT), (["migrate"], castgroup.migrate, RECORD),
                                  (["draw", "--html", "--from", "1", "--to", "2"], lambda script: castgroup.page(script, 1, 2), SCRIPT)):
            written = subprocess.run([PROGRAM, *words], input=text, stdout=subprocess.PIPE).stdout
            self.assertEqual(written, make(text))


class Groups(unittest.TestCase):
    def test_a_broadcast(self):
        world = castgroup.World(3, 1)
        self.assertEqual(world.order(0, b"a\0b"), castgroup.Reply(0, 0, 0, 1, 0))
        self.assertEqual(world.order(0, Propose(7, 3)).number, 1)
        self.assertEqual(world.order(0, Close()).number, 2)
        self.assertEqual(world.send(0, 1, 0).number, 0)
        self.assertEqual(world.arrive(0, 0), castgroup.Reply(1, 0, 0, 1, 0))
        self.assertEqual(world.ack(1, 0, 0).number, 0)
        self.assertFalse(world.at_rest())
        world.crash(2)
        self.assertFalse(world.live(2))
        world.round()
        world.round()
        self.assertTrue(world.at_rest())
        self.assertEqual(world.delivered(1, 0), [b"a\0b", Propose(7, 3), Close()])
        self.assertEqual(world.stream(0), [b"a\0b", Propose(7, 3), Close()])
        self.assertEqual((world.stream(1), world.stream(3)), ([], None))
        self.assertEqual((world.owed(0, 1), world.owed(0, 0)), (0, None))
        self.assertIsNone(world.delivered(1, 3))
        self.assertIsNone(world.item(1, 0, 3))
        self.assertIsNone(world.decision(1, 7))
        world.order(1, Propose(7, 2))
        self.assertEqual(world.decision(1, 7), 2)

    def test_events_and_deliveries(self):
        with castgroup.World(2, 0) as world:
            events = [Order(0, b"a"), Order(0, Propose(1, 2)), Send(0, 1, 0), Arrive(0, 0), Ack(1, 0, 0), Order(0, Close()), Crash(0)]
            replies = [world.step(event) for event in events]
            self.assertEqual([reply.number for reply in replies], [0, 1, 0, 1, 0, 2, 0])
            arrived = replies[3]
            self.assertEqual(list(world.deliveries(arrived.number, arrived.sender, arrived.first)), [b"a"])
            self.assertEqual(list(world.deliveries(0, 0)), [b"a", Propose(1, 2), Close()])
            self.assertEqual(list(world.deliveries(0, 0, 2)), [Close()])
            self.assertEqual(list(world.deliveries(7, 0)), [])
        self.assertRaises(castgroup.Closed, world.at_rest)

    def test_what_may_happen_next(self):
        with castgroup.World(3, 1) as world:
            self.assertEqual((world.events_enabled(), world.round_plan(), world.frame(0, 0)), ([], [], None))
            world.order(0, b"a")
            self.assertEqual(world.events_enabled(), [Send(0, 1, 0), Send(0, 2, 0)])
            settles = [[Send(0, to, 0), Arrive(0, to - 1), Ack(to, 0, 0), Arrive(to, 0)] for to in (1, 2)]
            self.assertEqual(world.round_plan(), settles[0] + settles[1])
            for event in settles[0][:3]:
                world.step(event)
            self.assertEqual(world.frame(0, 0), Carry(1, 0, 0, 0))
            self.assertEqual(world.frame(1, 0), Took(0, 0))
            self.assertNotEqual(Carry(0, 0, 0, 0), Took(0, 0))
            self.assertEqual((world.frame(0, 1), world.frame(3, 0), world.frame(255, 2**64 - 1)), (None, None, None))
            self.assertEqual(world.events_enabled(), [Send(0, 1, 0), Ack(1, 0, 0), Send(0, 2, 0), Send(1, 2, 0), Arrive(1, 0)])
            world.crash(2)
            world.arrive(1, 0)
            self.assertTrue(world.at_rest())
            self.assertEqual((world.events_enabled(), world.round_plan()), ([], []))
            for call in (lambda: world.frame("0", 0), lambda: world.frame(0, 0.5)):
                self.assertRaises(TypeError, call)
            for call in (lambda: world.frame(256, 0), lambda: world.frame(0, -1)):
                self.assertRaises(ValueError, call)

    def test_many_events(self):
        with castgroup.World(8, 0) as world:
            for number in range(160):
                world.order(number % 8, b"%d" % number)
            enabled, plan = world.events_enabled(), world.round_plan()
            self.assertEqual((len(enabled), len(plan)), (8 * 7 * 20, 4 * 8 * 7 * 20))
            self.assertTrue(all(world.fault(event) is None for event in enabled))
            for event in plan:
                world.step(event)
            self.assertEqual(world.delivered_count(7, 0), 20)

    def test_traps(self):
        world = castgroup.World(2, 0)
        for item in (5, (7, 3), [7, 3], "a", None, ()):
            self.assertRaises(TypeError, world.order, 0, item)
            self.assertRaises(TypeError, world.step, Order(0, item))
        for call in (lambda: castgroup.World(2.9, 0), lambda: castgroup.World("3", 0), lambda: castgroup.World(3, 0, item_limit=1.5),
                     lambda: castgroup.World(3, 0, uniform="no"), lambda: world.crash(0.0), lambda: world.send("0", 1, 0),
                     lambda: world.propose(0, 1.0, 2), lambda: world.live(0.5), lambda: world.step((4, 0))):
            self.assertRaises(TypeError, call)
        self.assertEqual(world.delivered(0, 0), [])
        for item in (bytearray(b"a"), memoryview(b"b")):
            world.order(0, item)
        self.assertEqual(world.delivered(0, 0), [b"a", b"b"])
        self.assertNotEqual(Propose(7, 3), (7, 3))
        self.assertNotEqual(Send(0, 1, 0), Ack(0, 1, 0))

    def test_refusals(self):
        world = castgroup.World(2, 0)
        for code, call in ((1, lambda: world.crash(2)), (2, lambda: world.send(1, 1, 0)), (5, lambda: world.order(0, b"a" * 1025)),
                           (8, lambda: world.send(0, 1, 0)), (11, lambda: world.arrive(0, 2**64 - 1))):
            with self.assertRaises(castgroup.Refused) as caught:
                call()
            self.assertEqual(caught.exception.code, code)
        for event, code in ((castgroup.Crash(2), 1), (castgroup.Order(0, b"a" * 1025), 5), (castgroup.Arrive(0, 7), 11)):
            self.assertEqual(world.fault(event).code, code)
        self.assertIsNone(world.fault(castgroup.Order(0, castgroup.Propose(1, 2))))
        self.assertRaises(ValueError, world.fault, castgroup.Crash(256))
        for call in (lambda: world.crash(256), lambda: world.crash(-1), lambda: world.arrive(0, 2**64), lambda: world.propose(0, 0, -1),
                     lambda: world.send(0, 300, 0), lambda: world.owed(0, 256), lambda: castgroup.World(-1, 0)):
            self.assertRaises(ValueError, call)
        with self.assertRaises(castgroup.BadConfig) as caught:
            castgroup.World(2, 1, uniform=True)
        self.assertEqual(caught.exception.code, 7)

    def test_a_closed_group_answers(self):
        world = castgroup.World(2, 0)
        world.close()
        world.close()
        for call in (world.round, world.at_rest, lambda: world.order(0, b"a"), lambda: world.delivered(0, 0), lambda: world.live(0),
                     lambda: world.owed(0, 1), lambda: world.decision(0, 0), lambda: world.item(0, 0, 0), lambda: world.frame(0, 0),
                     world.events_enabled, world.round_plan):
            self.assertRaises(ValueError, call)


class Threads(unittest.TestCase):
    def test_long_calls_let_go_of_the_lock(self):
        """While a call runs in one thread, another thread goes on."""
        world, judge = castgroup.World(16, 0), castgroup.Judge()
        for node in range(16):
            for _ in range(200):
                world.order(node, b"a")
        lines = (b"b %d %d data:61\n" % (node, number) for number in range(4_000) for node in range(64))
        record = b"cast/2 64 0 1 basic\n" + b"".join(lines) + b"end\n"
        for call in (world.round, lambda: judge.feed(record), lambda: castgroup.judge(record)):
            self.assertGreater(self.turns_during(call), 0)
        self.assertTrue(judge.finish())

    def turns_during(self, call):
        """How many turns this thread had while another was in the call. No thread is made to yield, so it has a turn only where the
        call lets the lock go."""
        interval = sys.getswitchinterval()
        sys.setswitchinterval(60)
        self.addCleanup(sys.setswitchinterval, interval)
        began, ended = threading.Event(), threading.Event()

        def run():
            began.set()
            call()
            ended.set()

        thread, turns = threading.Thread(target=run), 0
        thread.start()
        began.wait()
        while not ended.is_set():
            turns += 1
            time.sleep(0.001)
        thread.join()
        return turns

    def test_threads_share_a_group(self):
        world = castgroup.World(4, 0)

        def order(node):
            for number in range(300):
                world.order(node, b"%d" % number)
                world.delivered(node, node)

        threads = [threading.Thread(target=order, args=(node,)) for node in range(4)]
        for thread in threads:
            thread.start()
        for thread in threads:
            thread.join()
        self.assertEqual([world.delivered(node, node) for node in range(4)], [[b"%d" % number for number in range(300)]] * 4)


class Network:
    """Peers whose packets come in any order; some are lost, and some come twice."""

    def __init__(self, nodes, seed):
        self.peers = [Peer(nodes, 1, 7, me) for me in range(nodes)]
        self.logs, self.news = [bytearray() for _ in self.peers], [[] for _ in self.peers]
        self.under_way, self.numbers = [], random.Random(seed)

    def turn(self, peer):
        """Takes all that a peer gives."""
        while True:
            for packet in peer.packets():
                self.under_way += [packet] * self.numbers.choice([0, 1, 1, 2])
            if not peer.save(self.logs[peer.me].extend):
                break
        self.news[peer.me] += peer.news()

    def settle(self):
        while True:
            for peer in self.peers:
                self.turn(peer)
            if all(peer.is_quiet for peer in self.peers):
                return
            self.numbers.shuffle(self.under_way)
            while self.under_way:
                packet = self.under_way.pop()
                self.peers[packet.to].receive(packet.data)
            for peer in self.peers:
                peer.tick()

    def close(self):
        for peer in self.peers:
            peer.close()


class Peers(unittest.TestCase):
    def test_peers_deliver_the_same_over_a_bad_network(self):
        network = Network(3, 1)
        items = [b"a\0b", b"", Propose(9, 4), bytes(1024), Close()]
        for item in items:
            for peer in network.peers:
                peer.order(item)
        network.settle()
        for news in network.news:
            self.assertEqual([each.number for each in news if isinstance(each, Ordered)], [0, 1, 2, 3, 4])
            self.assertEqual([each for each in news if isinstance(each, Decided)], [Decided(9, 4)])
            for sender in range(3):
                delivered = [each for each in news if isinstance(each, Delivered) and each.sender == sender]
                self.assertEqual(delivered, [Delivered(sender, number, item) for number, item in enumerate(items)])
        self.merge(network.logs)
        network.close()

    def merge(self, logs):
        """The program must make one good run of the logs."""
        if PROGRAM is None:
            return
        with tempfile.TemporaryDirectory() as folder:
            paths = [Path(folder) / f"{node}.log" for node in range(len(logs))]
            for path, log in zip(paths, logs):
                path.write_bytes(log + castgroup.LOG_END)
            done = subprocess.run([PROGRAM, "merge", *paths], stdout=subprocess.PIPE)
        self.assertEqual((done.returncode, done.stdout[-22:]), (0, b"rest yes\nverdict good\n"))

    def test_nothing_goes_out_before_it_is_saved(self):
        with Peer(2, 0, 7, 0) as peer:
            log = []
            peer.order(b"a")
            self.assertEqual((peer.next_packet(), peer.next_news()), (None, None))
            self.assertEqual((peer.save(log.append), peer.save(log.append)), (True, False))
            self.assertEqual(list(peer.news()), [Ordered(0), Delivered(0, 0, b"a")])
            to, data, place = peer.next_packet()
            self.assertEqual((to, len(data), place, peer.log_length), (1, 48, 2, 2))
            self.assertFalse(peer.is_quiet)
            peer.give_up(1)
            self.assertTrue(peer.is_quiet)
        with Peer(2, 0, 7, 0, save_first=False) as peer:
            peer.order(Close())
            self.assertEqual((peer.next_packet().to, len(list(peer.news()))), (1, 2))

    def test_what_is_not_saved_waits(self):
        peer = Peer(2, 0, 7, 0)
        peer.order(b"a")
        peer.saved(1)
        self.assertEqual(len(list(peer.news())), 2)
        self.assertIsNone(peer.next_packet())
        peer.saved(10**6)
        self.assertEqual(peer.next_packet().place, 2)

        def fail(lines):
            raise OSError(28, "no space")

        peer.order(b"b")
        self.assertRaises(OSError, peer.save, fail)
        self.assertIsNone(peer.next_news())
        peer.close()

    def test_a_log(self):
        peer, log = Peer(1, 0, 2**64 - 1, 0), bytearray()
        self.assertEqual((peer.group, peer.me, peer.log_line(1)), (2**64 - 1, 0, None))
        peer.order(b"\xab" * 1024)
        self.assertRaises(castgroup.Refused, peer.order, bytes(1025))
        self.assertEqual(peer.log_length, 2)
        lines = [peer.log_line(place) for place in range(3)]
        self.assertEqual(lines[0], b"cast-log/1 1 0 1 basic 4096 18446744073709551615 0\n")
        self.assertTrue(len(lines[1]) > 4096 and lines[1].endswith(b"ab\n") and lines[2].endswith(b" refused 5\n"))
        self.assertTrue(peer.save(lambda text: log.extend(text[:9]) or len(text[:9])))  # a write that takes no more
        self.assertEqual(bytes(log), b"".join(lines))
        self.assertTrue(peer.is_quiet)

    def test_packets_are_dropped_for_their_cause(self):
        peer, other = Peer(2, 0, 7, 0), Peer(2, 0, 7, 1)
        peer.order(b"a")
        self.assertEqual((list(peer.packets()), peer.save(len)), ([], True))
        data = peer.next_packet().data
        changes = {1: {0: 0}, 2: {2: 2}, 3: {3: 9}, 4: {3: 2}, 5: {3: 0}, 11: {4: 8}, 12: {21: 0}, 14: {20: 1},
                   13: dict.fromkeys(range(12, 20), 255)}
        for code, change in changes.items():
            changed = bytearray(data)
            for place, byte in change.items():
                changed[place] = byte
            with self.assertRaises(castgroup.Dropped) as caught:
                other.receive(changed)
            self.assertEqual(caught.exception.code, code)
        self.assertRaises(castgroup.Dropped, other.receive, b"")
        self.assertEqual(other.log_length, 0)
        for kind in (bytes, bytearray, memoryview):
            other.receive(kind(data))
        self.assertGreater(other.log_length, 0)

    def test_orders_are_refused(self):
        peer, full = Peer(2, 0, 7, 0), Peer(2, 0, 7, 0, log_limit=1)
        peer.order(Propose(1, 1))
        with self.assertRaises(castgroup.Refused) as caught:
            peer.order(Propose(1, 2))
        self.assertEqual(caught.exception.code, 6)
        peer.order(Close())
        with self.assertRaises(castgroup.Refused) as caught:
            peer.order(bytearray(b"b"))
        self.assertEqual(caught.exception.code, 4)
        full.order(b"a")
        self.assertRaises(castgroup.Ended, full.order, b"b")

    def test_traps(self):
        peer = Peer(2, 0, 7, 0)
        for item in (5, (7, 3), "a", None):
            self.assertRaises(TypeError, peer.order, item)
            self.assertRaises(TypeError, peer.receive, item)
        for call in (lambda: Peer(2, 0, 7.0, 0), lambda: Peer(2, 0, 7, "0"), lambda: Peer(2, 0, 7, 0, save_first=1),
                     lambda: peer.give_up(0.5), lambda: peer.order(Propose(1.0, 2))):
            self.assertRaises(TypeError, call)
        for call in (lambda: Peer(2, 0, -1, 0), lambda: Peer(2, 0, 2**64, 0), lambda: Peer(2, 0, 7, 256), lambda: peer.give_up(256),
                     lambda: peer.saved(-1), lambda: peer.log_line(2**64), lambda: peer.order(Propose(-1, 0))):
            self.assertRaises(ValueError, call)
        with self.assertRaises(castgroup.BadConfig) as caught:
            Peer(2, 2, 7, 0)
        self.assertEqual(caught.exception.code, 2)
        with self.assertRaises(castgroup.Refused) as refused:
            Peer(2, 0, 7, 2)
        self.assertEqual(refused.exception.code, 1)

    def test_a_closed_peer_answers(self):
        peer = Peer(2, 0, 7, 0)
        peer.close()
        peer.close()
        for call in (peer.next_packet, peer.next_news, peer.tick, lambda: peer.log_length, lambda: peer.is_quiet, lambda: peer.order(b"a"),
                     lambda: peer.receive(b"a"), lambda: peer.saved(1), lambda: peer.give_up(1), lambda: peer.log_line(0),
                     lambda: peer.save(len)):
            self.assertRaises(castgroup.Closed, call)
        self.assertNotEqual(Ordered(1), (1,))


class Package(unittest.TestCase):
    def test_names(self):
        self.assertTrue(all(hasattr(castgroup, name) for name in castgroup.__all__))
        self.assertRegex(castgroup.__version__, r"^\d+\.\d+\.\d+$")
        self.assertTrue(Path(castgroup.__file__).with_name("py.typed").is_file())
        if PROGRAM is not None:
            said = subprocess.run([PROGRAM, "--version"], stdout=subprocess.PIPE, text=True).stdout
            self.assertEqual(re.match(r"castgroup (\S+)", said)[1], castgroup.__version__)


@unittest.skipIf(given is None, "hypothesis is not installed")
class AtRandom(unittest.TestCase):
    """What the kit proves, as Python shows it."""

    if given is not None:
        numbers = strategies.integers(0, 3)
        items = strategies.one_of(strategies.binary(max_size=4), strategies.builds(Propose, numbers, numbers), strategies.just(Close()))
        events = strategies.lists(strategies.one_of(
            strategies.builds(Order, numbers, items), strategies.builds(Send, numbers, numbers, numbers),
            strategies.builds(Ack, numbers, numbers, numbers), strategies.builds(Arrive, numbers, strategies.integers(0, 5)),
            strategies.builds(Crash, numbers)), max_size=40)

        @settings(deadline=None, max_examples=150)
        @given(events)
        def test_nodes_deliver_prefixes(self, events):
            with castgroup.World(3, 1) as world:
                ordered = {node: [] for node in range(3)}
                for event in events:
                    try:
                        world.step(event)
                    except castgroup.Refused as refused:
                        self.assertTrue(1 <= refused.code <= 12)
                        continue
                    if isinstance(event, Order):
                        ordered[event.node].append(event.item)
                for node in range(3):
                    for sender in range(3):
                        delivered = world.delivered(node, sender)
                        self.assertEqual(delivered, ordered[sender][: len(delivered)])
                world.round(), world.round()
                self.assertTrue(world.at_rest())

        @settings(deadline=None, max_examples=150)
        @given(strategies.binary(max_size=60), strategies.lists(strategies.integers(0, 90), max_size=6))
        def test_cuts_change_no_verdict(self, tail, cuts):
            record = RECORD[:40] + tail
            with castgroup.Judge() as judge:
                places = [0, *sorted(min(cut, len(record)) for cut in cuts), len(record)]
                for first, last in zip(places, places[1:]):
                    judge.feed(memoryview(record)[first:last])
                self.assertEqual(judge.finish(), castgroup.judge(record))


if __name__ == "__main__":
    unittest.main()
