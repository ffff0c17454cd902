#!/usr/bin/env python3
"""Kernels that hand memory to each other and take it back, written by hand from docs/machine.md.

usage: own_kernel.py [--fault] TRACE SEED FOLDER

TRACE declares kernels, PEs, VPEs, memories, and calls of derive, obtain, delegate and revoke. The
seed draws which kernel does what next. What kernel K did stands in FOLDER/kK.log then, a line for
each event. With --fault a kernel answers a revoke once it has asked the other kernels to revoke
what they hold, and does not wait until they have done so.
"""
import argparse
import random
from collections import defaultdict, deque
from dataclasses import dataclass, field
from functools import partial
from pathlib import Path
from typing import NamedTuple

OK, NO_VPE, NO_CAP, REVOKING, OCCUPIED, NUMBERS, WIDER, GONE, ITSELF = 0, 1, 3, 4, 6, 7, 9, 11, 15
WINDOW = 4  # how many messages a link holds
MEM = 1  # the kind of a memory


class Refused(Exception):
    """A call or an ask is refused with a code, and has changed nothing."""


class Key(NamedTuple):
    """The name of a capability. With the kind 0 it is a place: a name whose kind is not known."""
    pe: int
    vpe: int
    kind: int
    number: int

    def __str__(self):
        return ".".join(str(it) for it in (self if self.kind else (*self[:2], self.number)))


class Memory(NamedTuple):
    """A range of memory, and what may be done with it."""
    base: int
    length: int
    rights: int

    def __str__(self):
        return f"mem {self.base} {self.length} {self.rights}"


@dataclass
class Capability:
    """A memory at a selector of a VPE."""
    memory: Memory
    selector: int
    parent: Key | None
    children: set = field(default_factory=set)
    job: int | None = None  # the number of the job that revokes it


@dataclass
class Job:
    """A revoke at one kernel. It ends once nothing is open."""
    root: Key
    above: tuple | None  # the kernel and the number of the job that waits for this one
    waiters: list  # the VPEs whose calls wait for it
    open: int = 0  # how many other jobs it waits for


@dataclass
class Vpe:
    """What a kernel keeps of an application."""
    calls: list
    made: int = 0  # how many of its calls it has made
    drawn: int = 0  # how many keys it has drawn
    selectors: dict = field(default_factory=dict)  # by selector a key; None where one is promised
    asks: deque = field(default_factory=deque)  # what it is asked for
    parked: tuple | None = None  # what its call waits for


class Setup:
    """What a trace declares, if these kernels know all of it."""

    def __init__(self, lines):
        self.kernels, self.owner, self.pe = 0, {}, {}
        self.roots, self.calls = [], defaultdict(list)
        for line in lines:
            match [int(it) if it.isdigit() else it for it in line.partition("#")[0].split()]:
                case [] | ["end"] | ["semper", "trace", 1]:
                    pass
                case ["kernels", count]:
                    self.kernels = count
                case ["pe", pe, kernel]:
                    self.owner[pe] = kernel
                case ["vpe", vpe, pe]:
                    self.pe[vpe] = pe
                case ["root", vpe, selector, "mem", *numbers]:
                    self.roots.append((vpe, selector, Memory(*numbers)))
                case ["call", vpe, "derive" | "obtain" | "delegate" | "revoke" as name, *numbers]:
                    self.calls[vpe].append((name, *numbers))
                case _:
                    raise SystemExit(f"these kernels do not know this: {line}")

    def kernel_of(self, vpe):
        """The kernel of a VPE."""
        return self.owner[self.pe[vpe]]


class Kernel:
    """One kernel: what it keeps, what it does, and its log."""

    def __init__(self, number, setup, fault):
        self.number, self.setup, self.fault, self.log = number, setup, fault, []
        self.caps, self.promised, self.jobs, self.next_job = {}, {}, {}, 0
        self.inbox, self.outbox = None, [deque() for _ in range(setup.kernels)]
        here = [it for it in sorted(setup.pe) if setup.kernel_of(it) == number]
        self.vpes = {it: Vpe(setup.calls[it]) for it in here}
        for vpe, selector, memory in setup.roots:
            if vpe in self.vpes:
                self.install(self.draw(vpe), memory, selector, None)

    # The events. Each is done as a whole, and writes its line.

    def tell(self, event, *words):
        """Writes the line of an event."""
        self.log.append(" ".join(map(str, (self.number, event, *words))))

    def events(self, links):
        """All events that can come now."""
        for number, vpe in self.vpes.items():
            if vpe.parked is None and vpe.made < len(vpe.calls):
                yield partial(self.call, number, vpe)
            if vpe.parked and vpe.parked[0] in ("ready", "obtained", "prepared"):
                yield partial(self.resume, number, vpe)
            if vpe.asks:
                yield partial(self.upcall, number, vpe)
        if self.inbox:
            yield self.handle
        for other in range(self.setup.kernels):
            if not self.inbox and links[other, self.number]:
                yield partial(self.fetch, other, links[other, self.number])
            if self.outbox[other] and len(links[self.number, other]) < WINDOW:
                yield partial(self.flush, other, links[self.number, other])

    def call(self, number, vpe):
        """The event call: a VPE calls its kernel. What comes of it at once stands in the line."""
        name, *numbers = vpe.calls[vpe.made]
        try:
            outcome = getattr(self, name)(number, vpe, *numbers)
        except Refused as refused:
            outcome = ["reply", number, *refused.args]
        self.tell("call", number, vpe.made, name, *numbers, *outcome)
        vpe.made += 1

    def flush(self, other, link):
        """The event flush: a message goes out to another kernel. It is sent from here on."""
        message = self.outbox[other].popleft()
        link.append(message)
        self.tell("flush", other, *message)

    def fetch(self, other, link):
        """The event fetch: a message comes in, which leaves room behind it. Nothing is done yet."""
        self.inbox = other, link.popleft()
        self.tell("fetch", other, *self.inbox[1])

    def handle(self):
        """The event handle: the kernel does what the message says that it took in."""
        (sender, message), self.inbox = self.inbox, None
        match message:
            case ("obtain-req" | "delegate-req", *_):
                self.ask(message)
            case ("obtain-ok", parent, key, memory):
                vpe = self.vpes[key.vpe]
                vpe.parked = "obtained", parent, key, memory, vpe.parked[1]
            case ("obtain-no" | "delegate-no", asker, code):
                self.end_exchange(asker.vpe, code)
            case ("delegate-prepared", parent, key):
                self.vpes[parent.vpe].parked = "prepared", parent, key
            case ("ack", key, answer):
                parent, memory, selector = self.promised.pop(key)
                del self.vpes[key.vpe].selectors[selector]
                if answer == "yes":
                    self.install(key, memory, selector, parent)
            case ("unlink", parent, key):
                self.unlink(parent, key)
            case ("revoke-req", key, job):
                self.revoke_for(sender, key, job)
            case ("revoke-done", job):
                self.one_done(job)
        self.tell("handle", sender, *message)

    def upcall(self, number, vpe):
        """The event upcall: a VPE is asked. It consents here, and may still be refused."""
        name, asker, *rest = ask = vpe.asks.popleft()
        outcome = []
        try:
            outcome = (self.give if name == "obtain-req" else self.take)(number, asker, *rest)
        except Refused as refused:
            if asker.vpe in self.vpes:
                self.end_exchange(asker.vpe, *refused.args)
            else:
                self.send(asker.vpe, name.replace("req", "no"), ask[1], *refused.args)
        self.tell("upcall", number, asker.vpe, "yes", *outcome)

    def resume(self, number, vpe):
        """The event resume: a call that has waited goes on, and is answered."""
        parked, vpe.parked, outcome = vpe.parked, None, []
        match parked:
            case ("ready", code):
                pass
            case ("obtained", parent, key, memory, selector):
                self.install(key, memory, selector, parent)
                code = OK
            case ("prepared", parent, key):
                code = self.fault_of(parent)
                if code == OK:
                    self.caps[parent].children.add(key)
                    outcome = ["grant", parent, key]
                self.send(key.vpe, "ack", key, "no" if code else "yes")
        self.tell("resume", number, *outcome, "reply", number, code)

    # The four calls. What they give stands at the end of the line of the call.

    def derive(self, number, vpe, source, selector, offset, length, rights):
        """A VPE makes a smaller memory of one that it holds."""
        parent = self.held_at(vpe, source)
        memory = self.caps[parent].memory
        if offset + length > memory.length or rights & ~memory.rights:
            raise Refused(WIDER)
        self.test_destination(vpe, selector)
        child, base = self.draw(number), (memory.base + offset) % 2**32
        self.install(child, Memory(base, length, rights), selector, parent)
        self.caps[parent].children.add(child)
        return ["grant", parent, child, "reply", number, OK]

    def obtain(self, number, vpe, selector, other, source):
        """A VPE asks another one for what that one holds."""
        self.test_other(number, other)
        self.test_destination(vpe, selector)
        place = self.draw(number)._replace(kind=0)
        vpe.selectors[selector] = None
        vpe.parked = "obtain", selector
        self.ask(("obtain-req", place, "sel", other, source))
        return []

    def delegate(self, number, vpe, source, other, selector):
        """A VPE offers another one what it holds."""
        self.test_other(number, other)
        parent = self.held_at(vpe, source)
        vpe.parked = "delegate", parent
        self.ask(("delegate-req", parent, self.caps[parent].memory, other, selector))
        return []

    def revoke(self, number, vpe, source):
        """A VPE takes back a memory with all that was made from it."""
        key = vpe.selectors.get(source)
        if key is None:
            raise Refused(NO_CAP)
        vpe.parked = "revoke", key
        if self.caps[key].job is None:
            self.begin(key, None, [number])
        else:
            self.jobs[self.caps[key].job].waiters.append(number)
        return ["cut", key]

    # The asks.

    def ask(self, request):
        """Asks a VPE of this kernel, or sends the request to the kernel of that VPE."""
        if request[3] in self.vpes:
            self.vpes[request[3]].asks.append(request)
        else:
            self.send(request[3], *request)

    def give(self, number, place, _, __, source):
        """Grants a VPE what it asks for. It holds that once its own call goes on."""
        parent = self.held_at(self.vpes[number], source)
        memory, child = self.caps[parent].memory, place._replace(kind=MEM)
        self.caps[parent].children.add(child)
        if place.vpe in self.vpes:
            asker = self.vpes[place.vpe]
            self.install(child, memory, asker.parked[1], parent)
            asker.parked = "ready", OK
        else:
            self.send(place.vpe, "obtain-ok", parent, child, memory)
        return ["grant", parent, child]

    def take(self, number, parent, memory, _, selector):
        """Takes what is offered. Another kernel grants it only when its delegate goes on."""
        is_own = parent.vpe in self.vpes
        if is_own and self.fault_of(parent):
            raise Refused(self.fault_of(parent))
        self.test_destination(self.vpes[number], selector)
        child = self.draw(number)
        if not is_own:
            self.vpes[number].selectors[selector] = None
            self.promised[child] = parent, memory, selector
            self.send(parent.vpe, "delegate-prepared", parent, child)
            return []
        self.install(child, memory, selector, parent)
        self.caps[parent].children.add(child)
        self.vpes[parent.vpe].parked = "ready", OK
        return ["grant", parent, child]

    def end_exchange(self, number, code):
        """The call of a VPE that waits for an exchange will be answered with the code."""
        vpe = self.vpes[number]
        if vpe.parked[0] == "obtain":
            del vpe.selectors[vpe.parked[1]]
        vpe.parked = "ready", code

    # The revoke: mark what is here, ask the other kernels, and remove it when they are done.

    def begin(self, root, above, waiters):
        """Begins a job for a capability and all that was made from it."""
        number, job = self.next_job, Job(root, above, waiters)
        self.jobs[number], self.next_job = job, number + 1
        found, below = [root], set()
        while found:
            cap = self.caps[found.pop()]
            cap.job = number
            for child in cap.children:
                is_free = child in self.caps and self.caps[child].job is None
                (found.append if is_free else below.add)(child)
        for key in sorted(below):
            if key in self.caps:  # another job of this kernel has it, and now tells this one
                self.jobs[self.caps[key].job].above = self.number, number
                job.open += 1
            else:
                self.send(key.vpe, "revoke-req", key, number)
                job.open += 0 if self.fault else 1  # with the fault nobody waits for the answer
        if job.open == 0:
            self.finish(number)

    def finish(self, number):
        """Removes what the job has marked, and tells all who wait for it."""
        job = self.jobs.pop(number)
        parent = self.caps[job.root].parent
        for key in [it for it, cap in self.caps.items() if cap.job == number]:
            del self.vpes[key.vpe].selectors[self.caps.pop(key).selector]
        for waiter in job.waiters:
            self.vpes[waiter].parked = "ready", OK
        kernel, above = job.above or (None, None)
        if parent and parent.vpe in self.vpes:
            self.unlink(parent, job.root)
        elif parent and kernel in (None, self.number):
            self.send(parent.vpe, "unlink", parent, job.root)
        if kernel == self.number:
            self.one_done(above)
        elif kernel is not None:
            self.outbox[kernel].append(("revoke-done", above))

    def one_done(self, number):
        """One of those for which the job waits is done."""
        if number in self.jobs:
            self.jobs[number].open -= 1
            if self.jobs[number].open == 0:
                self.finish(number)

    def revoke_for(self, sender, key, above):
        """Another kernel revokes something from which the key was made."""
        vpe = self.vpes[key.vpe]
        if key in self.caps and self.caps[key].job is None:
            self.begin(key, (sender, above), [])
        elif key in self.caps:
            self.jobs[self.caps[key].job].above = sender, above
        else:
            if vpe.parked and vpe.parked[0] == "obtained" and vpe.parked[2] == key:
                del vpe.selectors[vpe.parked[4]]
                vpe.parked = "ready", GONE
            self.outbox[sender].append(("revoke-done", above))

    # What all of these need.

    def held_at(self, vpe, selector):
        """The key at a selector, if something can be made from it."""
        key = vpe.selectors.get(selector)
        code = NO_CAP if key is None else self.fault_of(key)
        if code != OK:
            raise Refused(code)
        return key

    def fault_of(self, key):
        """Why nothing can be made from the key, if so."""
        if key not in self.caps:
            return GONE
        return OK if self.caps[key].job is None else REVOKING

    def test_other(self, number, other):
        """Refuses an exchange with nobody, or with oneself."""
        if other == number:
            raise Refused(ITSELF)
        if other not in self.setup.pe:
            raise Refused(NO_VPE)

    def test_destination(self, vpe, selector):
        """Refuses a selector that is not free."""
        if selector in vpe.selectors:
            raise Refused(OCCUPIED)
        if vpe.drawn == 4096:
            raise Refused(NUMBERS)

    def draw(self, number):
        """The next key of a VPE."""
        self.vpes[number].drawn += 1
        return Key(self.setup.pe[number], number, MEM, self.vpes[number].drawn - 1)

    def install(self, key, memory, selector, parent):
        """From here on the VPE holds the capability."""
        self.caps[key] = Capability(memory, selector, parent)
        self.vpes[key.vpe].selectors[selector] = key

    def unlink(self, parent, key):
        """The parent, if it is still here, no longer leads to the key."""
        if parent in self.caps:
            self.caps[parent].children.discard(key)

    def send(self, vpe, *message):
        """Puts a message out for the kernel of a VPE. The event flush sends it."""
        self.outbox[self.setup.kernel_of(vpe)].append(message)


def run(setup, seed, fault):
    """Runs the kernels until none can do anything. The seed draws the next event."""
    kernels = [Kernel(it, setup, fault) for it in range(setup.kernels)]
    links, draws = defaultdict(deque), random.Random(seed)
    while events := [it for kernel in kernels for it in kernel.events(links)]:
        events[int(draws.random() * len(events))]()
    return kernels


def main():
    """Reads the trace, runs it, and writes the logs."""
    parser = argparse.ArgumentParser(description=__doc__.splitlines()[0])
    parser.add_argument("--fault", action="store_true", help="answer revokes too early")
    parser.add_argument("trace", type=Path)
    parser.add_argument("seed", type=int)
    parser.add_argument("folder", type=Path)
    asked = parser.parse_args()
    setup = Setup(asked.trace.read_text(encoding="utf-8").splitlines())
    for kernel in run(setup, asked.seed, asked.fault):
        lines = "".join(f"{it}\n" for it in kernel.log)
        Path(asked.folder, f"k{kernel.number}.log").write_text(lines, encoding="utf-8")


if __name__ == "__main__":
    main()
