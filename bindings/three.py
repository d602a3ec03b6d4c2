"""Three services that pay each other, each with a node. One is killed, and goes back with whoever took a payment that is undone."""
import json
import os
import sys
import tempfile

import koo_toueg
from koo_toueg_node import Begin, Deliver, Node, Parcel, Redeliver, Send


class Service:
    """An account with its node. What has to be durable of both is one file, which is there after a service's first step."""

    def __init__(self, me, path):
        self.me, self.path, self.busy = me, path, False
        if os.path.exists(path):
            with open(path) as file:
                state, part, outbox, self.permanent, self.tentative = json.load(file)
            self.node, self.part, self.balance = Node.load(bytes.fromhex(state)), part.encode(), None
            self.outbox = [(to, bytes.fromhex(parcel)) for to, parcel in outbox]
            self.recover()
        else:
            self.node, self.part, self.outbox, self.permanent, self.tentative = Node(me, 3), b"", [], 100, None
            self.balance = self.permanent

    def recover(self):
        """Begins a rollback, where the balance is lost. The node is not told so: it would drop messages."""
        if self.balance is None and not self.busy:
            self.step(Begin(rollback=True))

    def step(self, what):
        """Makes a step, and what has to follow it. What it puts stands in the outbox by then, and may go out."""
        while what is not None:
            saved = self.balance
            if saved is None and self.node.look(what):
                what = what._replace(able=False)
            output = self.node.step(what)
            if output is None:
                return
            for act in output.acts:
                match act.kind:
                    case "apply" if self.balance is not None: self.balance += act.body
                    case "keep": self.tentative = saved
                    case "promote": self.permanent = self.tentative
                    case "restore": self.balance = self.permanent
            self.part += b"".join(output.rows)
            self.outbox += [(to, bytes(parcel)) for to, parcel in output.parcels]
            self.store()
            self.busy = output.busy
            what = None if output.held is None else Redeliver(output.held)

    def store(self):
        """Makes all of it durable, or ends the program: its node is ahead of the disk."""
        outbox = [(to, parcel.hex()) for to, parcel in self.outbox]
        try:
            with open(self.path + ".new", "w") as file:
                json.dump((bytes(self.node).hex(), self.part.decode(), outbox, self.permanent, self.tentative), file)
                file.flush()
                os.fsync(file.fileno())
            os.replace(self.path + ".new", self.path)
            folder = os.open(os.path.dirname(self.path), os.O_RDONLY)
            os.fsync(folder)
            os.close(folder)
        except OSError as why:
            sys.exit(f"three.py: {why}")

    def pay(self, to, amount):
        """Pays, where the balance is not lost."""
        if self.balance is not None:
            self.step(Send(to, amount))
            self.balance -= amount


def carry(services):
    """Carries parcels until none is left, and no balance lost. One leaves its outbox when the step that took it is durable."""
    while any(service.outbox or service.balance is None for service in services):
        for service in services:
            if not any(other.outbox for other in services):
                # One at a time. Processes of their own draw pauses, since rollbacks at once may abort each other.
                service.recover()
        for service in services:
            while service.outbox:
                to, parcel = service.outbox[0]
                services[to].step(Deliver(service.me, Parcel.from_buffer_copy(parcel)))
                del service.outbox[0]
    print([service.balance for service in services])


with tempfile.TemporaryDirectory() as room:
    bank = [Service(me, f"{room}/service{me}") for me in range(3)]
    bank[0].pay(1, 40)
    bank[1].pay(2, 5)
    carry(bank)
    bank[1].step(Begin())
    carry(bank)
    bank[1].pay(2, 70)
    carry(bank)
    bank[1] = Service(1, f"{room}/service1")
    carry(bank)
log = koo_toueg.merge([service.part for service in bank])
print(log.decode() + str(koo_toueg.judge(log)))
