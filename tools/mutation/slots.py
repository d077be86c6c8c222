"""The processors that checks wait for. A check waits until a processor is free and none more urgent waits."""
import contextlib
import heapq
import itertools
import threading


class Slots:
    """So many checks may run side by side; of those that wait the most urgent goes first."""

    def __init__(self, count):
        self.free, self.waiting, self.turns, self.changed = count, [], itertools.count(), threading.Condition()

    @contextlib.contextmanager
    def one(self, urgency):
        own = -urgency, next(self.turns)
        with self.changed:
            heapq.heappush(self.waiting, own)
            self.changed.wait_for(lambda: self.free and self.waiting[0] == own)
            heapq.heappop(self.waiting)
            self.free -= 1
            self.changed.notify_all()
        try:
            yield
        finally:
            with self.changed:
                self.free += 1
                self.changed.notify_all()
