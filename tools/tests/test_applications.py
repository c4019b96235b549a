"""What the checks of applications accept and refuse, and what their inputs are, by cases worked out by hand."""
from __future__ import annotations

import struct
import unittest
from typing import Mapping

from yotarimu.applications import astar, bfs, color, database, des, labyrinth, maxflow, mis, msf, silo, sssp
from yotarimu.applications.catalogue import APPLICATIONS
from yotarimu.applications.chance import Chance
from yotarimu.applications.circuits import BITS, Circuit, Kind
from yotarimu.applications.graphs import Network, mesh, network, random_graph, rmat
from yotarimu.applications.inputs import words
from yotarimu.applications.memory import Memory, Place, WrongMemory
from yotarimu.applications.ways import FAR, need_shortest


def memory_of(variables: Mapping[str, bytes]) -> Memory:
    """A memory in which variables stand one after another."""
    places, data = {}, b""
    for name, content in variables.items():
        places[name] = Place(len(data), len(content))
        data += content
    return Memory(data, places)


def halves(numbers: list[int]) -> bytes:
    """Numbers of 16 bits."""
    return struct.pack(f"<{len(numbers)}H", *numbers)


class ProblemsTest(unittest.TestCase):
    """The inputs that are made from a seed."""

    def test_seeds_tell_all(self) -> None:
        for application in APPLICATIONS.values():
            least = application.size_range[0]
            one, same, other = (application.problem(least, seed).input for seed in (1, 1, 2))
            self.assertEqual(one, same, application.name)
            self.assertNotEqual(one.variables, other.variables, application.name)

    def test_sizes_with_names_are_within_the_range(self) -> None:
        for application in APPLICATIONS.values():
            self.assertEqual(list(application.sizes), ["small", "medium", "large"])
            for size in application.sizes.values():
                self.assertIn(size, application.size_range, application.name)

    def test_a_mesh_has_a_diagonal_in_each_square(self) -> None:
        neighbours = mesh(3, Chance(1))
        edges = {(one, other) for one, row in enumerate(neighbours) for other in row}
        self.assertEqual(len(edges), 2 * (12 + 4))
        self.assertTrue(all((other, one) in edges for one, other in edges))
        for corner in (0, 1, 3, 4):
            diagonals = [pair for pair in ((corner, corner + 4), (corner + 1, corner + 3)) if pair in edges]
            self.assertEqual(len(diagonals), 1)

    def test_graphs_have_no_loops_and_nothing_twice(self) -> None:
        edges = rmat(8, 4, Chance(1))
        self.assertEqual(len(set(edges)), 4 << 8)
        self.assertTrue(all(0 <= one < other < 256 for one, other in edges))
        for node, row in enumerate(random_graph(100, 4, Chance(1))):
            self.assertEqual(len(set(row)), len(row))
            self.assertNotIn(node, row)

    def test_few_nodes_of_rmat_have_many_neighbours(self) -> None:
        counts = [0] * 1024
        for one, other in rmat(10, 8, Chance(1)):
            counts[one] += 1
            counts[other] += 1
        counts.sort(reverse=True)
        self.assertGreater(sum(counts[:102]), sum(counts) * 4 // 10)

    def test_no_road_is_shorter_than_the_line(self) -> None:
        made = network(12, Chance(1))
        for one, row in enumerate(made.roads):
            for other, length in row:
                (ax, ay), (bx, by) = made.places[one], made.places[other]
                self.assertGreaterEqual(length ** 2, (ax - bx) ** 2 + (ay - by) ** 2)

    def test_adders_add(self) -> None:
        circuit = Circuit(2 * BITS)
        outputs = circuit.sum_of(list(range(BITS)), list(range(BITS, 2 * BITS)))
        for one, other in ((0, 0), (1, 2), (0xFFFFFFFF, 1), (0x89ABCDEF, 0xFEDCBA98), (0x7FFFFFFF, 0x7FFFFFFF)):
            values = [number >> bit & 1 for number in (one, other) for bit in range(BITS)]
            for gate in circuit.gates[2 * BITS:]:
                first, second = (values[read] for read in gate.reads)
                values.append({Kind.AND: first & second, Kind.OR: first | second, Kind.XOR: first ^ second}[gate.kind])
            self.assertEqual(sum(values[gate] << bit for bit, gate in enumerate(outputs)), (one + other) % 2 ** 32)


class WaysTest(unittest.TestCase):
    """Lengths of ways: 0 to 1 takes 4, 0 to 2 takes 1, 2 to 1 takes 2, and nothing leads to 3."""
    ROADS: list[list[tuple[int, int]]] = [[(1, 4), (2, 1)], [(0, 4), (2, 2)], [(0, 1), (1, 2)], []]
    RIGHT = [0, 3, 1, FAR]
    WRONG = ([0, 4, 1, FAR], [0, 2, 1, FAR], [0, 3, 1, 9], [0, FAR, FAR, FAR], [1, 4, 2, FAR], [0, 3, 1])

    def test_shortest_ways(self) -> None:
        need_shortest("way", self.ROADS, self.RIGHT)
        for wrong in self.WRONG:
            with self.assertRaises(WrongMemory):
                need_shortest("way", self.ROADS, wrong)

    def test_sssp(self) -> None:
        given = Network([(0, 0)] * 4, self.ROADS)
        self.assertIn("3 are reached", sssp.check(given, memory_of({"distance": words(self.RIGHT)})))
        with self.assertRaises(WrongMemory):
            sssp.check(given, memory_of({"distance": words(self.WRONG[0])}))

    def test_astar_may_leave_nodes_out(self) -> None:
        given = Network([(0, 0)] * 4, self.ROADS)
        self.assertIn("way of 1 ", astar.check(given, 2, memory_of({"distance": words([0, FAR, 1, FAR])})))
        for wrong in ([0, 4, 1, FAR], [0, FAR, 2, FAR], [0, 3, FAR, FAR]):
            with self.assertRaises(WrongMemory):
                astar.check(given, 2, memory_of({"distance": words(wrong)}))

    def test_bfs(self) -> None:
        neighbours = [[1, 2], [0, 2, 3], [0, 1], [1]]
        self.assertIn("greatest is 2", bfs.check(neighbours, memory_of({"level": words([0, 1, 1, 2])})))
        for wrong in ([0, 1, 2, 2], [0, 1, 1, 1], [0, 1, 1, FAR]):
            with self.assertRaises(WrongMemory):
                bfs.check(neighbours, memory_of({"level": words(wrong)}))


class GraphsTest(unittest.TestCase):
    """A square of the nodes 0 to 3 with the diagonal from 0 to 2."""
    NEIGHBOURS = [[1, 2, 3], [0, 2], [0, 1, 3], [0, 2]]
    # By weight: the diagonal is the lightest, and closes a circle with any two sides.
    EDGES = [(1, 0, 2), (2, 0, 1), (3, 1, 2), (4, 2, 3), (4, 0, 3)]

    def test_msf(self) -> None:
        for taken in (b"\1\1\0\1\0", b"\1\1\0\0\1"):
            self.assertIn("weighs 7", msf.check(4, self.EDGES, memory_of({"is_taken": taken})))
        for taken in (b"\1\1\1\0\0", b"\1\1\1\1\0", b"\1\0\1\1\0", b"\1\1\0\0\0"):
            with self.assertRaises(WrongMemory):
                msf.check(4, self.EDGES, memory_of({"is_taken": taken}))

    def test_msf_of_two_trees(self) -> None:
        edges = [(5, 0, 1), (6, 2, 3)]
        self.assertIn("2 edges weighs 11", msf.check(5, edges, memory_of({"is_taken": b"\1\1"})))

    def test_color(self) -> None:
        order = [0, 2, 1, 3]
        self.assertIn("3 colours", color.check(self.NEIGHBOURS, order, memory_of({"colour": words([1, 3, 2, 3])})))
        for wrong in ([1, 3, 2, 4], [1, 2, 2, 3], [2, 3, 1, 3], [1, 3, 2, 0]):
            with self.assertRaises(WrongMemory):
                color.check(self.NEIGHBOURS, order, memory_of({"colour": words(wrong)}))

    def test_mis(self) -> None:
        for right in (b"\1\2\2\2", b"\2\1\2\1"):
            mis.check(self.NEIGHBOURS, memory_of({"state": right}))
        for wrong in (b"\2\1\2\2", b"\1\1\2\2", b"\2\1\2\0", b"\2\2\2\2"):
            with self.assertRaises(WrongMemory):
                mis.check(self.NEIGHBOURS, memory_of({"state": wrong}))


class FlowTest(unittest.TestCase):
    """Arcs from 0 to 1 (room 3), 0 to 2 (2), 1 to 3 (2) and 2 to 3 (4): at most 4 reach 3."""

    def memory(self, flows: list[int], excess: list[int]) -> Memory:
        """The memory with so much in each of the four arcs."""
        net = self.net()
        room = list(net.room)
        for arc, flow in zip((0, 1, 3, 5), flows):
            room[arc] -= flow
            room[net.back[arc]] += flow
        return memory_of({"room": words(room), "excess": words(excess), "searches": words([1])})

    def net(self) -> maxflow.Net:
        """The net; the arcs of node 0 come first, then that of node 1 behind the one back to 0, and so on."""
        return maxflow.net_of(4, [(0, 1, 3), (0, 2, 2), (1, 3, 2), (2, 3, 4)])

    def test_arcs_and_those_back(self) -> None:
        net = self.net()
        self.assertEqual((net.first, net.to), ([0, 2, 4, 6, 8], [1, 2, 0, 3, 0, 3, 1, 2]))
        self.assertEqual(net.room, [3, 2, 0, 2, 0, 4, 0, 0])
        self.assertEqual(net.back, [2, 4, 0, 6, 1, 7, 3, 5])

    def test_the_greatest_flow(self) -> None:
        self.assertIn("flow of 4 ", maxflow.check(self.net(), self.memory([3, 2, 2, 2], [0, 1, 0, 4])))
        self.assertIn("flow of 4 ", maxflow.check(self.net(), self.memory([2, 2, 2, 2], [0, 0, 0, 4])))

    def test_other_flows(self) -> None:
        for flows, excess in (([2, 1, 2, 1], [0, 0, 0, 3]), ([3, 2, 2, 1], [0, 1, 1, 3]), ([3, 2, 2, 2], [0, 0, 0, 4]),
                              ([3, 2, 2, 2], [0, 1, 0, 5])):
            with self.assertRaises(WrongMemory):
                maxflow.check(self.net(), self.memory(flows, excess))


class LabyrinthTest(unittest.TestCase):
    """Four cells in each of two layers: 0 1 / 2 3 above 4 5 / 6 7. Wires from 0 to 1, and from 2 to 3."""

    def memory(self, owners: list[int], laid: list[int]) -> Memory:
        """The memory with so many cells of each wire."""
        return memory_of({"owner": halves(owners), "laid": words(laid)})

    def test_wires(self) -> None:
        given = labyrinth.Labyrinth(2, [(0, 1), (2, 3)])
        labyrinth.check(given, self.memory([1, 1, 2, 2, 0, 0, 0, 0], [2, 2]))
        labyrinth.check(given, self.memory([1, 1, 2, 2, 1, 1, 0, 0], [4, 2]))
        for owners, laid in (([1, 1, 0, 0, 0, 0, 0, 0], [2, 0]), ([1, 1, 2, 0, 0, 0, 0, 2], [2, 2]),
                             ([1, 1, 2, 2, 0, 0, 0, 0], [2, 3]), ([0, 1, 2, 2, 0, 0, 0, 0], [1, 2])):
            with self.assertRaises(WrongMemory):
                labyrinth.check(given, self.memory(owners, laid))

    def test_a_wire_without_a_way(self) -> None:
        given = labyrinth.Labyrinth(2, [(0, 3), (1, 2)])
        told = labyrinth.check(given, self.memory([1, 1, 0, 1, 0, 0, 0, 0], [3, 0]))
        self.assertIn("1 of 2 wires", told)


class SumsTest(unittest.TestCase):
    """Sums of a circuit, by periods."""

    def test_des(self) -> None:
        numbers = [[1, 2, 0xFFFFFFFF, 1], [3, 4, 5, 6]]
        states = struct.pack("<2BH2BH", 3, 1, 7, 0, 0, 5)
        right = memory_of({"sums": words([3, 0, 7, 11]), "states": states})
        self.assertIn("toggled 12 times", des.check(numbers, right))
        with self.assertRaises(WrongMemory):
            des.check(numbers, memory_of({"sums": words([3, 1, 7, 11]), "states": states}))


class DatabaseTest(unittest.TestCase):
    """One warehouse with one district, two customers and three items: an order of two lines, and a payment."""
    SIZES = database.Sizes(1, 1, 2, 3, 2, 2)
    TRANSACTIONS = [database.Transaction(0, 0, 1, 0, [database.Wish(0, 0, 4), database.Wish(2, 0, 1)]),
                    database.Transaction(0, 0, 0, 50, [])]
    PRICES = [10, 20, 30]
    RIGHT = {"districts": [50, 1] + [0] * 6, "orders": [1, 0, 2, 70, 0, 0, 0, 0],
             "lines": [0, 4, 40, 2, 1, 30, 0, 0, 0, 0, 0, 0], "warehouses": [50] + [0] * 7,
             "customers": [2 ** 32 - 50, 50, 1, 0, 0, 0, 0, 0], "payments": [0, 0, 0, 50],
             "stocks": [87, 4, 1, 0, 0, 0, 0, 0, 90, 1, 1, 0]}

    def answer(self, tables: Mapping[str, list[int]]) -> str:
        """What the check says of some tables."""
        memory = memory_of({name: words(numbers) for name, numbers in tables.items()})
        return database.check(self.SIZES, self.TRANSACTIONS, self.PRICES, True, memory)

    def test_tables(self) -> None:
        self.assertIn("2 transactions, 1 of them orders of 2 lines", self.answer(self.RIGHT))

    def test_each_number_counts(self) -> None:
        for name, numbers in self.RIGHT.items():
            for place, number in enumerate(numbers):
                is_told = number != 0 or name in ("stocks", "payments")
                wrong = {**self.RIGHT, name: [*numbers[:place], number + 1, *numbers[place + 1:]]}
                if is_told and not (name == "stocks" and place % 4 == 3 and number):
                    with self.assertRaises(WrongMemory, msg=f"{name} {place}"):
                        self.answer(wrong)

    def test_payments_are_half_of_the_transactions(self) -> None:
        made = silo.problem(True, 2000, Chance(1)).input
        kinds = struct.unpack(f"<{6 * 2000}I", made.variables["transactions"])[::6]
        self.assertTrue(900 < sum(kinds) < 1100)


if __name__ == "__main__":
    unittest.main()
