"""A branch of the bank: one process with one account, whose manager is a node. `bank.py` starts it.

usage: branch.py ME COUNT FOLDER PORT

Branch P listens on port PORT + P of this machine. Commands are lines of the standard input: `pay TO AMOUNT`, `checkpoint`, and `end`
after the last one. It prints `up` once its account is back, and `quiet` once nothing is left to do. It ends at the end of its input, and
what others have not taken by then goes out when it is started again. It ends with 74 where its disk fails, and with 75 where its folder
has another owner; a line on the standard error says so.
"""
import asyncio
import collections
import fcntl
import json
import os
import pathlib
import random
import stat
import sys
import zlib

sys.path.insert(0, str(pathlib.Path(__file__).resolve().parents[2] / "bindings"))
from koo_toueg_node import Begin, Deliver, Node, NodeFault, Parcel, Redeliver, Send  # noqa: E402

HOST = "127.0.0.1"
OPENING = 1000  # what an account has at first


class Stray(Exception):
    """What came over a link is not what a branch sends."""


def frame(data):
    """Bytes with their checksum, as they travel and as files have them."""
    return data + zlib.crc32(data).to_bytes(4, "little")


async def read_frame(reader, size):
    """So many bytes that traveled as a frame."""
    came = await reader.readexactly(size + 4)
    if came != frame(came[:size]):
        raise Stray
    return came[:size]


def greeting(sender, receiver):
    """What a branch says first on a link to another one."""
    return b"bank" + bytes([sender, receiver])


async def standard_input():
    """The lines of the standard input as they come. A file, /dev/null and a closed input never wait, and are read at once."""
    lines, mode = asyncio.StreamReader(), os.fstat(0).st_mode if sys.stdin else 0
    if stat.S_ISFIFO(mode) or stat.S_ISSOCK(mode) or sys.stdin and sys.stdin.isatty():
        await asyncio.get_running_loop().connect_read_pipe(lambda: asyncio.StreamReaderProtocol(lines), sys.stdin)
    else:
        lines.feed_data(sys.stdin.buffer.read() if sys.stdin else b"")
        lines.feed_eof()
    return lines


def give_up(status, why):
    """Ends this process at once, before anything of it goes out that is not durable."""
    print(f"branch.py: {why}", file=sys.stderr, flush=True)
    os._exit(status)


class Disk:
    """What outlives the process: the part of the log, the accounts that were saved, and the state, which says where the part ends. It
    has one owner, since two would overwrite each other."""

    def __init__(self, folder):
        os.makedirs(folder, exist_ok=True)
        self.folder = os.open(folder, os.O_RDONLY)
        self.lock()
        self.part = os.open("part", os.O_RDWR | os.O_CREAT, 0o644, dir_fd=self.folder)

    def lock(self):
        """Makes this process the owner, until it ends in whatever way."""
        self.owned = os.open("lock", os.O_RDWR | os.O_CREAT, 0o644, dir_fd=self.folder)
        try:
            fcntl.flock(self.owned, fcntl.LOCK_EX | fcntl.LOCK_NB)
        except BlockingIOError:
            give_up(os.EX_TEMPFAIL, "the folder has another owner")

    def read(self, name):
        """What a file got that was replaced."""
        with open(os.open(name, os.O_RDONLY, dir_fd=self.folder), "rb") as file:
            came = file.read()
        if came != frame(came[:-4]):
            raise OSError(f"{name} is damaged")
        return came[:-4]

    def write(self, file, data):
        """Writes all of it, and makes it durable."""
        if os.write(file, data) < len(data):
            raise OSError("the disk is full")
        os.fsync(file)

    def replace(self, name, data):
        """Makes a file durable in place of the one before, with its checksum."""
        file = os.open("new", os.O_WRONLY | os.O_CREAT | os.O_TRUNC, 0o644, dir_fd=self.folder)
        try:
            self.write(file, frame(data))
        finally:
            os.close(file)
        os.rename("new", name, src_dir_fd=self.folder, dst_dir_fd=self.folder)
        os.fsync(self.folder)

    def cut(self, end):
        """Drops the rows of the part behind this place, which are those of a step that was not made durable."""
        os.ftruncate(self.part, end)
        os.lseek(self.part, end, os.SEEK_SET)


class Branch:
    """A node and an account. No other branch sees anything of a step before all of it is durable."""

    def __init__(self, me, count, folder, port):
        self.me, self.port = me, port
        self.others = [to for to in range(count) if to != me]
        self.waiting, self.links, self.is_busy = collections.deque(), {}, False
        # Of the accounts that were saved: how many, and which one is permanent, and which one tentative.
        self.end = self.steps = self.saves = self.permanent = self.tentative = 0
        self.outbox = {to: [] for to in self.others}
        try:
            self.disk = Disk(folder)
            self.start(count)
        except OSError as why:
            give_up(os.EX_IOERR, why)

    def start(self, count):
        """Starts, or goes on after the last step that was made durable."""
        try:
            self.resume(json.loads(self.disk.read("state")))
        except FileNotFoundError:
            self.node, self.account = Node(self.me, count), OPENING
            self.disk.replace("saved0", b"%d" % OPENING)
            self.store(b"")
        self.disk.cut(self.end)

    def resume(self, stored):
        """Takes what was stored. The account is lost: None until it is restored. The node is not told so, and drops nothing."""
        self.node, self.account = Node.load(bytes.fromhex(stored["node"])), None
        self.end, self.steps, self.saves, self.permanent, self.tentative = stored["numbers"]
        for to, parcels in stored["outbox"].items():
            self.outbox[int(to)] = [Parcel.from_buffer_copy(bytes.fromhex(parcel)) for parcel in parcels]

    def store(self, rows):
        """Makes a step durable: its rows first, and then, at once, all else and where the rows end."""
        if rows:
            self.disk.write(self.disk.part, rows)
        self.end += len(rows)
        outbox = {to: [bytes(parcel).hex() for parcel in parcels] for to, parcels in self.outbox.items()}
        numbers = self.end, self.steps, self.saves, self.permanent, self.tentative
        self.disk.replace("state", json.dumps({"node": bytes(self.node).hex(), "outbox": outbox, "numbers": numbers}).encode())

    def save(self):
        """Saves the account, as the one that becomes tentative where the step keeps it; whether that was done."""
        if self.account is None:
            return False
        try:
            self.disk.replace(f"saved{self.saves + 1}", b"%d" % self.account)
        except OSError:
            return False
        return True

    def step(self, what):
        """Gives the node an input, and makes what follows durable before a parcel goes out. It returns of whom the node holds messages.
        Where the disk fails the node is ahead of it, so nothing follows."""
        if self.node.look(what):
            what = what._replace(able=self.save())
        output = self.node.step(what)
        if output is None:
            return None
        self.steps += 1
        for to, parcel in output.parcels:
            self.outbox[to].append(parcel)
        try:
            for act in output.acts:
                self.do(act)
            self.store(b"".join(output.rows))
        except OSError as why:
            give_up(os.EX_IOERR, why)
        self.put(output.parcels)
        self.is_busy = output.busy
        return output.held

    def do(self, act):
        """Does to the account, and to those that were saved, what a step asks for."""
        match act.kind:
            case "apply" if self.account is not None:
                self.account += act.body
            case "keep":
                self.saves = self.tentative = self.saves + 1
            case "promote":
                self.permanent, self.tentative = self.tentative, 0
            case "discard":
                self.tentative = 0
            case "restore":
                self.account = int(self.disk.read(f"saved{self.permanent}"))
                self.waiting.clear()

    def put(self, parcels):
        """Puts parcels on their way. Where there is no link they wait in the outbox."""
        for to, parcel in parcels:
            if to in self.links:
                self.links[to].write(frame(bytes(parcel)))

    def take(self, what):
        """Gives the node an input, and then what it holds."""
        held = self.step(what)
        while held is not None:
            held = self.step(Redeliver(held))
        self.pay()

    def pay(self):
        """Makes the payments that wait, where there is the money for them. In an open instance they go on waiting."""
        while self.waiting and not self.is_busy and self.account is not None:
            to, amount = self.waiting.popleft()
            if amount <= self.account:
                self.step(Send(to, amount))
                self.account -= amount

    async def recover(self):
        """Rolls back until the account is restored, and again where another branch was unwilling, which may want to do so itself."""
        pause = .01
        while self.account is None:
            if not self.is_busy:
                self.take(Begin(rollback=True))
                pause = min(2 * pause, 1)
            await asyncio.sleep(random.uniform(.005, pause))
        print("up", flush=True)

    async def feed(self, to):
        """Keeps a link to a branch."""
        while True:
            try:
                reader, writer = await asyncio.open_connection(HOST, self.port + to)
                try:
                    await self.bring(to, reader, writer)
                finally:
                    self.links.pop(to, None)
                    writer.close()
            except (OSError, asyncio.IncompleteReadError, Stray):
                await asyncio.sleep(.02)

    async def bring(self, to, reader, writer):
        """Brings a branch what is in the outbox, until it is acknowledged."""
        writer.write(frame(greeting(self.me, to)))
        if await read_frame(reader, len(greeting(0, 0))) != greeting(to, self.me):
            raise Stray
        self.links[to] = writer
        self.put((to, parcel) for parcel in self.outbox[to])
        while True:
            taken = int.from_bytes(await read_frame(reader, 8), "little")
            self.outbox[to] = [parcel for parcel in self.outbox[to] if parcel.number > taken]

    async def serve(self, reader, writer):
        """Takes the parcels of a branch. Each is acknowledged once its step is durable. What is not the next parcel of a branch closes
        its link, and nothing else."""
        try:
            came = await read_frame(reader, len(greeting(0, 0)))
            sender = came[-2]
            if sender not in self.others or came != greeting(sender, self.me):
                raise Stray
            writer.write(frame(greeting(self.me, sender)))
            while True:
                parcel = Parcel.from_buffer_copy(await read_frame(reader, len(bytes(Parcel()))))
                self.take(Deliver(sender, parcel))
                writer.write(frame(parcel.number.to_bytes(8, "little")))
        except (OSError, asyncio.IncompleteReadError, Stray, NodeFault):
            writer.close()

    async def obey(self, group):
        """Does what the standard input says, to its end."""
        async for line in await standard_input():
            word, *numbers = line.decode().split()
            if word == "pay":
                self.waiting.append(tuple(map(int, numbers)))
                self.pay()
            elif word == "checkpoint" and self.account is not None and not self.is_busy:
                self.take(Begin())
            elif word == "end":
                group.create_task(self.tell_quiet())
        os._exit(0)

    async def tell_quiet(self):
        """Waits until nothing is left to do."""
        while self.account is None or self.is_busy or self.waiting or any(self.outbox.values()):
            await asyncio.sleep(.01)
        print("quiet", flush=True)

    async def run(self):
        async with asyncio.TaskGroup() as group:
            if self.account is None:
                group.create_task(self.recover())
            await asyncio.start_server(lambda *link: group.create_task(self.serve(*link)), HOST, self.port + self.me)
            for to in self.others:
                group.create_task(self.feed(to))
            await self.obey(group)


if __name__ == "__main__":
    asyncio.run(Branch(int(sys.argv[1]), int(sys.argv[2]), sys.argv[3], int(sys.argv[4])).run())
