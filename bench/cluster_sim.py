#!/usr/bin/env python3
"""Simulates `cluster/dpoly-cluster` on many machines, over trees like those of the certificates that are given.

  cluster_sim.py [options] CERT ..

Of each branch of these trees with at least 40 splits below it the shares of its two sides are taken. A tree of any number of
splits is drawn by them: a side that has s splits is divided again as one of those was, of about that size where there is
one. Depth first, a part with a budget takes what it can and leaves the rest open, as `resume` does.

Seconds of the clock as many times the ideal (all splits, shared evenly, and nothing else) for:

  fixed    parts once, from the open leaves of the first search, each to its end
  joined   parts within a budget, what they leave in the next round, four times the budget in each once each machine has its
           parts; the results of each round are joined, and each part of the next reads the whole
  rounds   the same, but the results are joined and checked once, at the end, side by side
  flow     as dpoly-cluster does: what a part leaves are parts at once, and no machine waits for the end of a round

docs/PERFORMANCE.md has a table.
"""
import argparse
import bisect
import collections
import heapq
import itertools
import math
import os
import random
import sys

sys.path.insert(0, os.path.join(os.path.dirname(os.path.dirname(os.path.abspath(__file__))), 'checker'))
from dpoly_lines import rule_of  # noqa: E402


def shares(name, least):
    """Of each branch with enough below it its splits, and the share of its first side."""
    with open(name, encoding='ascii') as file:
        lines = file.read().split('\n')[:-2]
    top = max(place for place, line in enumerate(lines) if line == 'tree')
    found, sizes = [], []
    for line in reversed(lines[top + 1 :]):
        below = rule_of(line).left
        if below == 2:
            first, second = sizes.pop(), sizes.pop()
            sizes.append(1 + first + second)
            if first + second >= least:
                found.append((1 + first + second, first / (first + second)))
        elif not below:
            sizes.append(0)
    return sorted(found), sizes[0], len(lines) - top - 1


class Trees:
    """Trees that are drawn. A tree is its number of splits: what is below is drawn where it is looked at, once."""

    def __init__(self, found, draw):
        self.sizes = [size for size, _ in found]
        self.shares = [share for _, share in found]
        self.draw = draw

    def sides(self, size):
        """The splits of the two sides of a tree."""
        place = bisect.bisect_left(self.sizes, size)
        # one of the forty branches about that size; of the larger half where none is so large
        low, high = max(0, place - 20), min(len(self.sizes), place + 20)
        if high == len(self.sizes):
            low = len(self.sizes) // 2
        first = round((size - 1) * self.shares[self.draw.randrange(low, high)])
        return first, size - 1 - first

    def search(self, size, budget):
        """Splits that are made within a budget, and the trees that are left open, the next one last."""
        done, waiting = 0, [size]
        while waiting and done < budget:
            size = waiting.pop()
            if size <= budget - done:
                done += size
            else:
                done += 1
                first, second = self.sides(size)
                waiting += [second, first]
        return done, [it for it in waiting if it > 0]


class Cluster:
    """So many machines, and what things take on them, in seconds."""

    def __init__(self, asked, machines, trees):
        self.asked, self.machines, self.trees = asked, machines, trees
        self.clock = self.split = 0.0
        self.results = 1

    def check(self, splits):
        return splits * self.asked.check / self.asked.rate

    def one_round(self, parts, budget, reads):
        """Goes on with these parts; what is left."""
        asked, left = self.asked, []
        groups = min(len(parts), self.machines * asked.parts)
        free = [asked.start] * min(groups, self.machines)
        for number in range(groups):
            took = 0
            for size in parts[number::groups]:
                done, rest = self.trees.search(size, budget)
                self.split += done
                left += rest
                took += asked.call + reads + done / asked.rate
            heapq.heappush(free, heapq.heappop(free) + took)
        self.results += len(parts)
        self.clock += max(free) + asked.round + asked.result * len(parts)
        return left

    def run(self, splits, way):
        """Seconds of the search, of what follows it, and rounds."""
        asked = self.asked
        done, left = self.trees.search(splits, asked.budget)
        self.split, self.clock = done, done / asked.rate
        large, rounds = asked.budget, 0
        while left:
            rounds += 1
            enough = len(left) >= self.machines * asked.enough
            is_last = way == 'fixed' and (enough or rounds > 3)
            reads = self.check(self.split) if way == 'joined' else 0
            budget = large if enough else asked.budget
            left = self.one_round(left, splits if is_last else budget, reads)
            if way == 'joined':
                self.clock += self.check(self.split)
            large = min(asked.growth * large, asked.most) if enough else large
        return self.clock, self.check(self.split), rounds


class Flow:
    """So many machines without rounds. A machine that is free takes a part that is laid out, or waits for one."""

    def __init__(self, asked, machines, trees):
        self.asked, self.machines, self.trees = asked, machines, trees
        self.free, self.waiting, self.laid = machines, collections.deque(), collections.deque()
        self.events, self.order, self.driver = [], itertools.count(), 0.0
        self.results, self.split, self.seconds, self.busy, self.rounds = 1, 0, 0.0, 0.0, 0

    def budget(self):
        """As that of `dpoly-cluster`."""
        asked, count = self.asked, len(self.laid) + len(self.waiting)
        splits = self.split / max(self.seconds, 0.001) * math.sqrt(asked.root * self.seconds / self.machines)
        most = min(splits, self.split / (asked.share * self.machines), asked.limit)
        return max(asked.budget, int(most * min(1, max(1 / asked.small, count / (asked.enough * self.machines)))))

    def learn(self, left, number):
        """The driver has parts of this round, and lays some out."""
        self.waiting += [(size, number) for size in reversed(left)]
        while self.waiting and len(self.laid) < self.asked.ahead * self.machines:
            budget = self.budget()
            self.laid.append((*self.waiting.popleft(), budget))

    def take(self, now):
        """A machine takes a part."""
        size, number, budget = self.laid.popleft()
        self.rounds = max(self.rounds, number)
        done, left = self.trees.search(size, budget)
        took = self.asked.call + done / self.asked.rate
        self.busy += took
        heapq.heappush(self.events, (now + took, next(self.order), True, (done, took), left, number))

    def run(self, splits):
        """Seconds of the search, of what follows it, and rounds."""
        asked = self.asked
        done, left = self.trees.search(splits, asked.budget)
        clock, self.split = asked.start + done / asked.rate, done
        heapq.heappush(self.events, (clock, next(self.order), False, (0, 0.0), left, 0))
        while self.events:
            now, _, is_end, done, left, number = heapq.heappop(self.events)
            if is_end:
                clock, self.free, self.results = now, self.free + 1, self.results + 1
                # the driver takes result after result, and looks for them from time to time
                self.driver = max(self.driver, now) + asked.result
                heapq.heappush(self.events, (self.driver + asked.look / 2, next(self.order), False, done, left, number))
            else:
                self.split += done[0]
                self.seconds += done[1]
                self.learn(left, number + 1)
            while self.laid and self.free:
                self.free -= 1
                # who has just ended takes the next one; others look from time to time
                self.take(now if is_end else now + asked.look / 2)
        return clock, self.split / asked.rate * asked.check, self.rounds


def row(asked, machines, way, found):
    """What a way takes, and the share of the machines' time for which they have parts."""
    splits = int(machines * asked.seconds * asked.rate)
    asked = argparse.Namespace(**vars(asked))
    asked.budget = asked.budget or (max(1000, 6 * machines) if way == 'flow' else 1000)
    trees = Trees(found, random.Random(asked.seed))
    it = (Flow if way == 'flow' else Cluster)(asked, machines, trees)
    clock, behind, rounds = it.run(splits) if way == 'flow' else it.run(splits, way)
    busy = (it.busy if way == 'flow' else asked.call * it.results + it.split / asked.rate) / (machines * clock)
    print('| %d | %.1e | %s | %d | %d | %.2f | %.2f | %.2f |' % (machines, splits, way, rounds, it.results, busy, clock / asked.seconds, (clock + behind) / asked.seconds), flush=True)


def main():
    parser = argparse.ArgumentParser(usage=__doc__)
    parser.add_argument('certs', nargs='+')
    parser.add_argument('--machines', type=lambda it: [int(x) for x in it.split(',')], default=[10, 100, 1000, 10000])
    parser.add_argument('--seconds', type=float, default=3600, help='the ideal')
    parser.add_argument('--rate', type=float, default=5000, help='splits a second')
    parser.add_argument('--check', type=float, default=0.6, help='seconds of a check for each second of search')
    parser.add_argument('--start', type=float, default=1.0, help='seconds to start a task')
    parser.add_argument('--call', type=float, default=0.05, help='seconds of a part besides its splits')
    parser.add_argument('--round', type=float, default=3.0, help='seconds of a round besides its tasks')
    parser.add_argument('--result', type=float, default=0.0005, help='seconds of the driver for a result')
    parser.add_argument('--budget', type=int, help='1000 by default; without rounds 6 for each machine where that is more')
    parser.add_argument('--growth', type=int, default=4)
    parser.add_argument('--enough', type=int, default=4)
    parser.add_argument('--most', type=int, default=200000, help='splits of a part, in rounds')
    parser.add_argument('--parts', type=int, default=32, help='groups of parts for each machine, in rounds')
    parser.add_argument('--root', type=float, default=1.0, help='a part takes the root of so many times what a machine has worked')
    parser.add_argument('--share', type=int, default=4)
    parser.add_argument('--limit', type=int, default=1048576, help='splits of a part, without rounds')
    parser.add_argument('--small', type=int, default=16)
    parser.add_argument('--ahead', type=int, default=4)
    parser.add_argument('--look', type=float, default=2.0, help='seconds after which driver and machines look for news')
    parser.add_argument('--seed', type=int, default=1)
    parser.add_argument('--ways', default='fixed,joined,rounds,flow')
    asked = parser.parse_args()
    found = []
    for name in asked.certs:
        some, size, lines = shares(name, 40)
        found += some
        uneven = sorted(max(share, 1 - share) for _, share in some)
        print('%s: %d splits, %.1f lines a split; the larger side has %.2f, %.2f, %.2f of the rest at a tenth, half, nine tenths of %d branches'
              % (name.split('/')[-1], size, lines / size, *(uneven[int(it * (len(some) - 1))] for it in (0.1, 0.5, 0.9)), len(some)))
    found.sort()
    print('| machines | splits | way | rounds | results | busy | search | joined and checked too |\n|---|---|---|---|---|---|---|---|')
    for machines in asked.machines:
        for way in asked.ways.split(','):
            row(asked, machines, way, found)


main()
