"""How much memory is free, by what the system says."""

import sys
import unittest
from unittest import mock

from running import InFolder

from octofix.io import memory


class Free(InFolder):
    def free(self, machine, **container):
        """Where these files say so: what isn't given isn't there."""
        names = "machine", *(f"{name}{it}" for it in (2, 1) for name in ("bound", "used", "kinds"))
        for name, content in {"machine": machine, **container}.items():
            with open(name, "w") as file:
                file.write(content)
        places = {"MACHINE": names[0], "CONTAINERS": (names[1:4], names[4:])}
        with mock.patch.multiple(memory, **places):
            return memory.free_memory()

    def test_of_a_machine(self):
        self.assertEqual(self.free("MemTotal: 9 kB\nMemAvailable:    7 kB\n"), 7 << 10)
        self.assertEqual(self.free(""), sys.maxsize)

    def test_of_a_container(self):
        """Its bound less what it uses; what it keeps of files it can give back."""
        machine = "MemAvailable: 7000 kB\n"
        self.assertEqual(self.free(machine, bound2="max\n", used2="5\n"), 7000 << 10)
        self.assertEqual(self.free(machine, bound2="5000\n", used2="1200\n"), 3800)
        kinds = "anon 1000\nactive_file 7\ninactive_file 150\n"
        self.assertEqual(self.free(machine, kinds2=kinds), 3950)
        self.assertEqual(self.free(machine, used2="6000\n", kinds2=""), 0)

    def test_of_a_container_of_the_first_version(self):
        machine = "MemAvailable: 7000 kB\n"
        kinds = "inactive_file 1\ntotal_inactive_file 90\n"
        found = {"bound1": "5000\n", "used1": "1200\n", "kinds1": kinds}
        self.assertEqual(self.free(machine, **found), 3890)


if __name__ == "__main__":
    unittest.main()
