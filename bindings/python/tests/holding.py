"""A map whose lock another thread holds, as a call does that takes long."""
import os
import threading


class Held:
    """The lock of a map, held from `with` on, for a change or for a question."""

    def __init__(self, world, is_changing):
        self._world, self._is_changing = world, is_changing
        self._thread = None

    def __enter__(self):
        self._begun, begin = os.pipe()
        end, self._end = os.pipe()
        self._descriptors = self._begun, begin, end, self._end
        words = begin, end, self._is_changing
        self._thread = threading.Thread(target=self._world._hold, args=words)
        self._thread.start()
        os.read(self._begun, 1)
        return self

    def give_back(self):
        """Gives the lock back, once."""
        if self._thread is not None:
            os.write(self._end, b"\0")
            self._thread.join()
            self._thread = None
            for it in self._descriptors:
                os.close(it)

    def __exit__(self, *_):
        self.give_back()
