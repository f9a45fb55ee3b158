"""A peer that the test driver plays, by lines (tests/test_driver/peer.rattle)."""
import subprocess


class Driver:
    """A peer in a process of its own."""

    def __init__(self, program, config, group, me):
        self.process = subprocess.Popen([program, "peer"], stdin=subprocess.PIPE, stdout=subprocess.PIPE)
        self.lines = self.ask(f"peer {config} {group} {me}")[0]

    def say(self, calls):
        self.process.stdin.write("".join(call + "\n" for call in calls).encode())
        self.process.stdin.flush()

    def ask_all(self, calls):
        """Of each call the lines that it shows, and the line that says what became of it."""
        self.say(calls)
        return [self.answer() for _call in calls]

    def ask(self, call):
        return self.ask_all([call])[0]

    def answer(self):
        shown = []
        while (line := self.process.stdout.readline().decode()).startswith(" "):
            shown.append(line[1:-1])
        if not line:
            raise EOFError("the driver ended")
        return shown, line[:-1]

    def packets(self):
        """What is to be sent now, as targets and bytes. Each entry of the log is kept as a line, and so is saved."""
        sent = []
        while True:
            (given, said), (lines, count) = self.ask_all(["packets", "lines"])
            self.lines += lines
            sent += map(packet_of, given)
            if said == "nothing" and not lines:
                return sent
            self.ask(f"saved {count}")

    def close(self):
        self.process.stdin.close()
        self.process.stdout.close()
        return self.process.wait()


def packet_of(line):
    """The target and the bytes of a packet that the driver shows."""
    to, digits = line.split(" ")
    return int(to), bytes.fromhex(digits)
