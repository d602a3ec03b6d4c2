"""A bank of branches that pay each other over TCP, each a process of this machine. Some are killed, and start again.

usage: bank.py [--branches N] [--seconds S] [--kills K] [--seed SEED] [--folder FOLDER]

For S seconds it draws payments and checkpoints, and kills K times a branch. Then it waits until nothing is left to do, merges the parts
of all branches into one log, asks the checker whether this is the log of a run, and counts the money in each recovery line, with what is
on its way there, and in the end nothing is. It ends with 0 where the answer is yes and the money is all there.
"""
import argparse
import contextlib
import json
import os
import pathlib
import random
import signal
import socket
import subprocess
import sys
import tempfile
import threading
import time

from branch import HOST, OPENING

import koo_toueg

BRANCH = pathlib.Path(__file__).resolve().parent / "branch.py"
AGAIN = (-signal.SIGKILL, os.EX_IOERR, os.EX_TEMPFAIL)  # how a branch ends that is started again


class Broken(Exception):
    """Why a session is not as it has to be."""


def free_port(count):
    """A port that is free on this machine, and so are those after it."""
    while True:
        port = random.SystemRandom().randrange(20_000, 32_000)
        try:
            for p in range(count):
                socket.create_server((HOST, port + p)).close()
            return port
        except OSError:
            pass


class Bank:
    """The branches, each a process that is started again where it was killed or its disk failed, by words and in an environment that may
    be other ones."""

    def __init__(self, count, folder, words=(sys.executable, str(BRANCH)), environment=lambda: None):
        self.count, self.folder, self.words, self.environment = count, pathlib.Path(folder), words, environment
        self.port, self.processes, self.quiet = free_port(count), {}, set()
        self.kills, self.times, self.said, self.fault, self.is_ending = 0, [], {}, None, False
        self.folder.mkdir(parents=True)

    def keep(self, p):
        """Starts a branch, and again where it did not come to its end."""
        while not self.fault:
            began, words = time.monotonic(), (str(p), str(self.count), str(self.branch_folder(p)), str(self.port))
            with open(self.folder / f"errors{p}", "w+b") as errors:
                process = subprocess.Popen([*self.words, *words], env=self.environment(), stdin=subprocess.PIPE, stdout=subprocess.PIPE, stderr=errors)
                self.processes[p] = process
                if self.is_ending:
                    self.tell(p, "end")
                for line in process.stdout:
                    if line == b"up\n":
                        self.times.append(time.monotonic() - began)
                    else:
                        self.quiet.add(p)
                status = process.wait()
                if status == 0:
                    return
                errors.seek(0)
                self.said[p] = [line for line in errors.read().decode().splitlines() if "Error" in line or line.startswith("branch.py")][-1:]
                if status not in AGAIN:
                    self.fault = f"branch {p} stopped: {self.said[p]}"
            self.quiet.discard(p)
            self.kills += 1
            time.sleep(random.uniform(0, .2))

    def tell(self, p, *words):
        """Gives a branch a command, which it does not get where it was killed."""
        try:
            self.processes[p].stdin.write(" ".join(map(str, words)).encode() + b"\n")
            self.processes[p].stdin.flush()
        except (KeyError, OSError):
            pass

    def work(self, seconds, kills, chance):
        """Draws payments, checkpoints and kills."""
        began = time.monotonic()
        times = sorted(chance.uniform(0, seconds) for _ in range(kills))
        while (now := time.monotonic() - began) < seconds and not self.fault:
            p, to = chance.sample(range(self.count), 2)
            self.tell(p, "pay", to, chance.randint(1, OPENING // 4))
            if chance.random() < .04:
                self.tell(p, "checkpoint")
            if times and times[0] < now and p in self.processes:
                del times[0]
                self.processes[p].kill()
            time.sleep(chance.uniform(0, .01))

    def settle(self, seconds=30):
        """Waits until no branch has anything left to do."""
        self.is_ending, until = True, time.monotonic() + seconds
        for p in range(self.count):
            self.tell(p, "end")
        while len(self.quiet) < self.count and not self.fault:
            if time.monotonic() > until:
                self.fault = f"something is left to do; what branches said last: {self.said}"
            time.sleep(.02)

    def session(self, seconds, kills, chance):
        """Work with kills, to its end."""
        keepers = [threading.Thread(target=self.keep, args=(p,)) for p in range(self.count)]
        for keeper in keepers:
            keeper.start()
        self.work(seconds, kills, chance)
        self.settle()
        for process in self.processes.values():
            with contextlib.suppress(BrokenPipeError):
                process.stdin.close()
        for keeper in keepers:
            keeper.join()
        if self.fault:
            raise Broken(self.fault)

    def branch_folder(self, p):
        return self.folder / f"branch{p}"

    def read(self, p, name):
        """What a file of a branch has before its checksum."""
        return (self.branch_folder(p) / name).read_bytes()[:-4]

    def log(self):
        """One log of all branches, which has to be that of a run."""
        log = koo_toueg.merge([(self.branch_folder(p) / "part").read_bytes() for p in range(self.count)])
        (self.folder / "log").write_bytes(log)
        answer = koo_toueg.judge(log)
        if not answer:
            raise Broken(str(answer))
        return log

    def steps(self):
        """How many steps the nodes made."""
        return sum(json.loads(self.read(p, "state"))["numbers"][1] for p in range(self.count))

    def saved(self, p, number):
        """What a branch saved as its so many-th checkpoint, 0 for the opening."""
        return int(self.read(p, f"saved{number}"))


def recovery_lines(log, count):
    """The recovery lines of a log: which checkpoint of each branch each has, 0 for the opening, and how much is on its way there; and how
    much is on its way at the end."""
    line, taken, kinds, members, amounts = [0] * count, [0] * count, {}, {}, {}
    # What each branch put on its way, less what it took from there: now, when it took its last checkpoint, and in its permanent one.
    now, tentative, permanent = ([0] * count for _ in range(3))
    lines = [(line[:], 0)]
    for number, row in enumerate(log.decode().split("\n")):
        match row.split(","):
            case "sent", p, _, body:
                amounts[str(number)] = int(body)
                now[int(p)] += int(body)
            case "received", p, _, message:
                now[int(p)] -= amounts[message]
            case "began", p, k, kind:
                kinds[k], members[k] = kind, []
            case "took", p, k, _:
                taken[int(p)] += 1
                tentative[int(p)] = now[int(p)]
                members[k].append(int(p))
            case "ready", p, k, _:
                members[k].append(int(p))
            case "decided", p, k, "commit" if kinds[k] == "rollback":
                for q in members[k]:
                    now[q] = permanent[q]
            case "decided", p, k, "commit":
                for q in members[k]:
                    line[q], permanent[q] = taken[q], tentative[q]
                lines.append((line[:], sum(permanent)))
    return lines, sum(now)


def audit(bank, log):
    """Counts the money in each recovery line, with what is on its way there, and what never came; how many lines there are."""
    lines, left = recovery_lines(log, bank.count)
    for number, (line, on_its_way) in enumerate(lines, 1):
        found = sum(bank.saved(p, checkpoint) for p, checkpoint in enumerate(line)) + on_its_way
        if found != bank.count * OPENING:
            raise Broken(f"recovery line {number}: {found} in place of {bank.count * OPENING}")
    if left:
        raise Broken(f"{left} never came")
    return len(lines)


def main():
    parser = argparse.ArgumentParser(description=__doc__.split("\n", maxsplit=1)[0])
    parser.add_argument("--branches", type=int, default=4, metavar="N")
    parser.add_argument("--seconds", type=float, default=5, metavar="S")
    parser.add_argument("--kills", type=int, default=5, metavar="K")
    parser.add_argument("--seed", type=int, default=1)
    parser.add_argument("--folder", help="a new one for what the branches write")
    asked = parser.parse_args()
    try:
        bank = Bank(asked.branches, asked.folder or pathlib.Path(tempfile.mkdtemp(prefix="bank-")) / "branches")
        bank.session(asked.seconds, asked.kills, random.Random(asked.seed))
        log = bank.log()
        lines = audit(bank, log)
    except (Broken, FileExistsError, koo_toueg.Fault) as why:
        sys.exit(f"bank.py: {why}")
    back = f"; an account was back after {max(bank.times) * 1000:.0f} ms at most" if bank.times else ""
    print(f"{asked.branches} branches, {bank.kills} kills: {bank.steps()} steps, {log.count(b'decided')} instances{back}")
    print(f"{lines} recovery lines, with {asked.branches * OPENING} in each; {bank.folder} has what the branches wrote")
    print("yes")


if __name__ == "__main__":
    main()
