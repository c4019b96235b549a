"""The tables of a database, and what transactions leave in them."""
from __future__ import annotations

import dataclasses
import itertools
from typing import Sequence

from yotarimu.applications.memory import Memory, need

PRICES = (100, 10_000)
WORD = 1 << 32
# So many of an item come when its stock gets low.
COMING = 91
Row = tuple[int, ...]


@dataclasses.dataclass(frozen=True)
class Sizes:
    """How much there is of what; orders are those of a district, and lines those of an order."""
    warehouses: int
    districts: int
    customers: int
    items: int
    most_orders: int
    most_lines: int


@dataclasses.dataclass(frozen=True)
class Wish:
    """A line of an order: so much of an item, from the stock of a warehouse."""
    item: int
    warehouse: int
    quantity: int


@dataclasses.dataclass(frozen=True)
class Transaction:
    """A payment of an amount, or an order that wishes for something."""
    warehouse: int
    district: int
    customer: int
    amount: int
    wishes: list[Wish]

    @property
    def is_payment(self) -> bool:
        """Orders have five lines or more."""
        return not self.wishes


def check(sizes: Sizes, transactions: list[Transaction], prices: list[int], is_ordered: bool, memory: Memory) -> str:
    """Compares each table with the sums over all transactions; in an ordered root orders come by their numbers."""
    places = order_places(sizes, transactions, is_ordered, memory)
    check_orders(sizes, transactions, prices, places, memory)
    check_payments(sizes, transactions, memory)
    check_stocks(sizes, transactions, memory)
    lines = sum(len(it.wishes) for it in transactions)
    return (f"{len(transactions):,} transactions, {len(places):,} of them orders of {lines:,} lines, left all tables "
            "as they should")


def district_of(sizes: Sizes, it: Transaction) -> int:
    """The place of a transaction's district among all."""
    return it.warehouse * sizes.districts + it.district


def order_places(sizes: Sizes, transactions: list[Transaction], is_ordered: bool, memory: Memory) -> dict[int, int]:
    """Where each order stands, by the number of its transaction; each is to stand once, in its own district."""
    orders, places = memory.rows("orders", 4), {}
    for district, row in enumerate(memory.rows("districts", 8)):
        first = district * sizes.most_orders
        need(row[1] <= sizes.most_orders, f"district {district} has {row[1]} orders")
        numbers = [orders[place][1] for place in range(first, first + row[1])]
        need(not is_ordered or numbers == sorted(numbers), f"the orders of district {district} aren't in their order")
        for place, number in enumerate(numbers, first):
            known = number < len(transactions) and not transactions[number].is_payment
            need(known and number not in places and district_of(sizes, transactions[number]) == district,
                 f"orders[{place}] is of transaction {number}, which has no order there")
            places[number] = place
    wanted = sum(not it.is_payment for it in transactions)
    need(len(places) == wanted, f"{len(places)} orders exist, and {wanted} should")
    return places


def check_orders(sizes: Sizes, transactions: list[Transaction], prices: list[int], places: dict[int, int],
                 memory: Memory) -> None:
    """Holds each order's head and lines."""
    orders, lines = memory.rows("orders", 4), memory.rows("lines", 3)
    for number, place in places.items():
        it, total = transactions[number], 0
        for at, wish in enumerate(it.wishes, place * sizes.most_lines):
            wanted: Row = (wish.item, wish.quantity, wish.quantity * prices[wish.item])
            need(lines[at] == wanted, f"lines[{at}] is {lines[at]}, and should be {wanted}")
            total += wanted[2]
        wanted = (it.customer, number, len(it.wishes), total)
        need(orders[place] == wanted, f"orders[{place}] is {orders[place]}, and should be {wanted}")


def check_payments(sizes: Sizes, transactions: list[Transaction], memory: Memory) -> None:
    """Holds what warehouses, districts and customers were paid, and each payment."""
    warehouses, districts = [0] * sizes.warehouses, [0] * (sizes.warehouses * sizes.districts)
    customers = [[0, 0] for _ in range(len(districts) * sizes.customers)]
    payments = memory.rows("payments", 2)
    for number, it in enumerate(transactions):
        wanted: Row = (0, 0)
        if it.is_payment:
            district = district_of(sizes, it)
            customer = district * sizes.customers + it.customer
            warehouses[it.warehouse] += it.amount
            districts[district] += it.amount
            customers[customer][0] += it.amount
            customers[customer][1] += 1
            wanted = (customer, it.amount)
        need(payments[number] == wanted, f"payments[{number}] is {payments[number]}, and should be {wanted}")
    need_column("warehouses", memory.rows("warehouses", 8), 0, warehouses)
    need_column("districts", memory.rows("districts", 8), 0, districts)
    rows = memory.rows("customers", 4)
    need_column("customers", rows, 0, [-paid % WORD for paid, _ in customers])
    need_column("customers", rows, 1, [paid for paid, _ in customers])
    need_column("customers", rows, 2, [count for _, count in customers])


def check_stocks(sizes: Sizes, transactions: list[Transaction], memory: Memory) -> None:
    """Holds the stocks. What is left of one depends on the order of its lines, but for multiples of what comes."""
    stocks = [[0, 0, 0] for _ in range(sizes.warehouses * sizes.items)]
    for it in transactions:
        for wish in it.wishes:
            stock = stocks[wish.warehouse * sizes.items + wish.item]
            stock[0] += wish.quantity
            stock[1] += 1
            stock[2] += wish.warehouse != it.warehouse
    rows = memory.rows("stocks", 4)
    for column in range(3):
        need_column("stocks", rows, column + 1, [stock[column] for stock in stocks])
    for place, (row, stock) in enumerate(zip(rows, stocks)):
        need(row[0] <= COMING + 10 and (row[0] + stock[0]) % COMING == 0,
             f"stocks[{place}] has {row[0]} left, of which {stock[0]} were sold")


def need_column(table: str, rows: Sequence[Row], column: int, wanted: Sequence[int]) -> None:
    """Holds a column of a table."""
    for place, (row, number) in enumerate(itertools.zip_longest(rows, wanted)):
        need(row[column] == number, f"word {column} of {table}[{place}] is {row[column]}, and should be {number}")
