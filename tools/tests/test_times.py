"""The order of tasks, on the rules of docs/machine/MACHINE.md, "Which task comes first"."""
from __future__ import annotations

import unittest

from yotarimu.lines.times import UNDISPATCHED, root


class Times(unittest.TestCase):
    """The order of virtual times."""
    def test_timestamps_come_before_dispatches(self) -> None:
        domain = root(True)
        self.assertLess(domain.time(1, 9), domain.time(2, 3))
        self.assertLess(domain.time(2, 3), domain.time(2, 4))
        self.assertLess(domain.time(2, 4), domain.time(2, UNDISPATCHED))

    def test_in_an_unordered_domain_dispatches_alone_count(self) -> None:
        domain = root(False)
        self.assertLess(domain.time(7, 1), domain.time(2, 2))

    def test_a_subdomain_comes_right_behind_its_maker(self) -> None:
        domain = root(True)
        maker, after = domain.time(2, 5), domain.time(2, 6)
        inner = domain.inner(maker, True)
        self.assertLess(maker, inner.time(0, UNDISPATCHED))
        self.assertLess(inner.time(1_000, UNDISPATCHED), after)

    def test_outside_of_a_subdomain_is_its_makers_domain(self) -> None:
        domain = root(True)
        inner = domain.inner(domain.time(2, 5), False)
        self.assertEqual(inner.outer(), domain)
        self.assertEqual(len(inner.kinds), 2)


if __name__ == "__main__":
    unittest.main()
