"""A run: own sums travel up to the roots, totals travel down to the ghosts."""

from scene import ZERO, join, own_sums


class Run:
    def __init__(self, scene, plan, medium):
        sums = own_sums(scene)
        self.kind = scene.kind
        self.plan = plan
        self.medium = medium
        self.values = [sums.get(copy, ZERO) for copy in plan.copies]
        size = range(plan.boards)
        self.known = [[0 for _ in size] for _ in size]
        self.accepted = [[0 for _ in size] for _ in size]
        self.tally = {"turns": 0, "puts": 0, "lost": 0, "accepted": 0}

    def others(self, p):
        return [q for q in range(self.plan.boards) if q != p]

    def has_gathered(self, p):
        return all(self.accepted[q][p] >= self.plan.up(q, p) for q in self.others(p))

    def item(self, p, q, m):
        """Item m of the link p to q as it stands now."""
        up = self.plan.up(p, q)
        if m < up:
            return self.values[self.plan.links[p][q][m].leaf_copy]
        return self.values[self.plan.links[q][p][m - up].root_copy]

    def accept(self, q, p, words):
        m = self.accepted[q][p]
        up = self.plan.up(q, p)
        if m < up:
            root = self.plan.links[q][p][m].root_copy
            self.values[root] = join(self.kind, self.values[root], words)
        else:
            self.values[self.plan.links[p][q][m - up].leaf_copy] = words
        self.accepted[q][p] = m + 1
        self.tally["accepted"] += 1

    def receive(self, q, p, frame):
        item, reply = frame
        known = self.known[p][q]
        if known < self.plan.items(p, q) and reply != known % 2:
            self.known[p][q] = known + 1
        if item is None:
            return
        bit, words = item
        count = self.accepted[q][p]
        if count < self.plan.items(q, p) and bit == count % 2:
            self.accept(q, p, words)

    def send(self, p, q, answer_owed, gathered):
        m = self.known[p][q]
        reply = self.accepted[q][p] % 2
        if m < self.plan.items(p, q) and (m < self.plan.up(p, q) or gathered):
            frame = ((m % 2, self.item(p, q, m)), reply)
        elif answer_owed:
            frame = (None, reply)
        else:
            return
        self.tally["puts"] += 1
        if self.medium.put(p, q, frame) == 0:
            self.tally["lost"] += 1

    def turn(self, p):
        owed = set()
        for q in self.others(p):
            for _ in range(self.medium.waiting(q, p)):
                frame = self.medium.take(q, p)
                if frame[0] is not None:
                    owed.add(q)
                self.receive(q, p, frame)
        gathered = self.has_gathered(p)
        for q in self.others(p):
            self.send(p, q, q in owed, gathered)
        self.tally["turns"] += 1

    def awaits(self, p):
        """The lowest board from which p lacks items, or None where p is settled."""
        for q in self.others(p):
            if self.accepted[q][p] < self.plan.items(q, p):
                return q
        return None

    def settled(self):
        return all(self.awaits(p) is None for p in range(self.plan.boards))

    def circles(self, most):
        """Ascending circles until all boards are settled or so many are made."""
        made = 0
        while made < most and not self.settled():
            for p in range(self.plan.boards):
                self.turn(p)
            made += 1
        return made
