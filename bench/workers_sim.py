"""A model of workers that share one book: how many times as fast as one worker they are.

Each worker has a processor of its own and works on box after box: some time outside the book, by a
law of no memory, then `turns` turns at the book of `inside` microseconds each. A worker that finds
the book taken looks for `spin` microseconds and takes it where it becomes free, which costs
`handoff` more, since the book's memory comes from another processor. Then it sleeps. The end of a
turn wakes one that sleeps, which tries again `wake` microseconds later, and sleeps again where the
book is taken. What is not in the model: stealing, sharing of caches and memory, and few boxes."""
from __future__ import annotations

import heapq
import random
from dataclasses import dataclass

from parts import Asked, Part
from results import Results

COUNTS = ['8', '16', '32', '64']
MODEL = Results('workers_model', ['turn, us'], [*COUNTS, 'load'])


@dataclass
class Model:
    """Times in microseconds."""

    inside: float
    box: float = 50.0  # in all, with its turns
    turns: int = 1
    handoff: float = 0.2
    wake: float = 50.0
    spin: float = 10.0
    count: int = 30_000


class Simulation:
    """Workers, the book that they share, and what happens next."""

    def __init__(self, workers: int, model: Model, seed: int = 1):
        self.model = model
        self.draw = random.Random(seed)
        self.outside = max(model.box - model.turns * model.inside, 0.001)
        self.left = model.count
        self.turns = [model.turns] * workers
        self.is_taken = False
        self.looking: dict[int, int] = {}
        self.asleep: list[int] = []
        self.events: list[tuple[float, int, str, int]] = []
        self.now, self.order = 0.0, 0

    def run(self) -> float:
        """Microseconds of the clock for all boxes."""
        steps = {'asks': self.asks, 'tires': self.tires, 'tries': self.tries, 'ends': self.ends}
        for worker in range(len(self.turns)):
            self.begin(worker)
        while self.events:
            self.now, place, what, worker = heapq.heappop(self.events)
            steps[what](worker, place)
        return self.now

    def later(self, after: float, what: str, worker: int) -> None:
        self.order += 1
        heapq.heappush(self.events, (self.now + after, self.order, what, worker))

    def begin(self, worker: int) -> None:
        """A worker takes the next box, if there is one."""
        if self.left > 0:
            self.left -= 1
            self.turns[worker] = self.model.turns
            self.later(self.draw.expovariate(1 / self.outside), 'asks', worker)

    def take(self, worker: int, extra: float) -> None:
        self.is_taken = True
        self.later(self.model.inside + extra, 'ends', worker)

    def asks(self, worker: int, _: int) -> None:
        if self.is_taken:
            self.later(self.model.spin, 'tires', worker)
            self.looking[worker] = self.order
        else:
            self.take(worker, 0)

    def tires(self, worker: int, place: int) -> None:
        """A worker that has looked for so long goes to sleep."""
        if self.looking.get(worker) == place:
            del self.looking[worker]
            self.asleep.append(worker)

    def tries(self, worker: int, _: int) -> None:
        if self.is_taken:
            self.asleep.append(worker)
        else:
            self.take(worker, self.model.handoff)

    def ends(self, worker: int, _: int) -> None:
        """A turn ends: one that sleeps is woken, and one that looks takes the book."""
        self.is_taken = False
        self.turns[worker] -= 1
        if self.turns[worker] > 0:
            self.later(0, 'asks', worker)
        else:
            self.begin(worker)
        if self.asleep:
            woken = self.asleep.pop(self.draw.randrange(len(self.asleep)))
            self.later(self.model.wake, 'tries', woken)
        if self.looking:
            next_one = self.draw.choice(sorted(self.looking))
            del self.looking[next_one]
            self.take(next_one, self.model.handoff)


def workers_model_part(asked: Asked) -> None:
    """More workers than this machine has processors, in a model."""
    part = Part(asked, MODEL)
    for inside in (0.4, 0.7, 1.0, 2.0):
        name = f'{inside:g}'
        if part.is_due(name):
            model = Model(inside)
            alone = model.count * model.box
            times = {it: f'{alone / Simulation(int(it), model).run():.1f}' for it in COUNTS}
            part.keep({'turn, us': name, **times})
