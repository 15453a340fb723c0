"""Media: lanes of frames between boards. A frame is (item, reply); an item is (bit, words) or None."""

BOARDS = 8
CODES = (1, 0, 0, 2, 0, 1, 0, 0, 2, 0, 0, 1, 0, 0, 0, 2)


class Queue:
    """Keeps up to 8 frames a lane, each once."""

    def __init__(self):
        self.lanes = {(p, q): [] for p in range(BOARDS) for q in range(BOARDS)}

    def put(self, p, q, frame):
        lane = self.lanes.get((p, q))
        if lane is None or len(lane) >= 8:
            return 0
        lane.append(frame)
        return 1

    def take(self, p, q):
        lane = self.lanes.get((p, q))
        return lane.pop(0) if lane else None

    def waiting(self, p, q):
        return len(self.lanes.get((p, q), ()))


class Over:
    """What stands over another medium and passes take and waiting down."""

    def __init__(self, below):
        self.below = below

    def take(self, p, q):
        return self.below.take(p, q)

    def waiting(self, p, q):
        return self.below.waiting(p, q)


class Quota(Over):
    """Appends nothing where w or more frames wait."""

    def __init__(self, w, below):
        super().__init__(below)
        self.w = w

    def put(self, p, q, frame):
        if self.below.waiting(p, q) >= self.w:
            return 0
        return self.below.put(p, q, frame)


class Script(Over):
    """Put number m follows code m modulo 16: 0 passes, 1 drops, 2 passes twice."""

    def __init__(self, below):
        super().__init__(below)
        self.number = 0

    def put(self, p, q, frame):
        code = CODES[self.number % len(CODES)]
        self.number += 1
        if code == 1:
            return 0
        first = self.below.put(p, q, frame)
        if code == 2:
            return first + self.below.put(p, q, frame)
        return first
