"""Transactions of a database: new orders and payments, in a flat order, as subdomains, or as one task each."""
from __future__ import annotations

import dataclasses
import functools

from yotarimu.applications.application import Application, Problem
from yotarimu.applications.chance import Chance
from yotarimu.applications.inputs import Input, rows_of_words, words
from yotarimu.applications.database import PRICES, Sizes, Transaction, Wish, check

WAREHOUSES, DISTRICTS = 4, 10
# How many lines an order has, of a hundred lines how many are from another warehouse, and how much is wished and paid.
LINES, FROM_AFAR, QUANTITIES, AMOUNTS = (5, 15), 1, (1, 10), (1, 5_000)
# With so many transactions come so many customers of a district, and so many items.
SHARE, CUSTOMERS, ITEMS = 32_000, 3_000, 100_000


def problem(is_ordered: bool, count: int, chance: Chance) -> Problem:
    """So many transactions, half of them payments."""
    customers, items = max(16, CUSTOMERS * count // SHARE), max(64, ITEMS * count // SHARE)
    transactions = [transaction(customers, items, chance) for _ in range(count)]
    orders = [0] * (WAREHOUSES * DISTRICTS)
    for it in transactions:
        orders[it.warehouse * DISTRICTS + it.district] += not it.is_payment
    sizes = Sizes(WAREHOUSES, DISTRICTS, customers, items, max(max(orders), 1), LINES[1])
    prices = [chance.number(*PRICES) for _ in range(items)]
    return Problem(given_of(sizes, transactions, prices),
                   functools.partial(check, sizes, transactions, prices, is_ordered))


def transaction(customers: int, items: int, chance: Chance) -> Transaction:
    """A transaction of a customer in a district of a warehouse."""
    warehouse, district = chance.number(0, WAREHOUSES - 1), chance.number(0, DISTRICTS - 1)
    customer = chance.number(0, customers - 1)
    if chance.happens(50):
        return Transaction(warehouse, district, customer, chance.number(*AMOUNTS), [])
    wishes = []
    for _ in range(chance.number(*LINES)):
        other = chance.number(0, WAREHOUSES - 1) if chance.happens(FROM_AFAR) else warehouse
        wishes.append(Wish(chance.number(0, items - 1), other, chance.number(*QUANTITIES)))
    return Transaction(warehouse, district, customer, 0, wishes)


def given_of(sizes: Sizes, transactions: list[Transaction], prices: list[int]) -> Input:
    """What the programs are given: all wishes stand one after another."""
    rows: list[tuple[int, ...]] = []
    wishes: list[tuple[int, ...]] = []
    for it in transactions:
        count = it.amount if it.is_payment else len(it.wishes)
        rows.append((int(it.is_payment), it.warehouse, it.district, it.customer, count, len(wishes)))
        wishes += [dataclasses.astuple(wish) for wish in it.wishes]
    # An array of C has at least one place.
    wishes = wishes or [(0, 0, 0)]
    numbers = {name.upper(): number for name, number in dataclasses.asdict(sizes).items()}
    return Input({**numbers, "TRANSACTIONS": len(rows), "WISHES": len(wishes)},
                 {"transactions": rows_of_words(rows), "wishes": rows_of_words(wishes), "prices": words(prices)})


def application(name: str, source: str, is_ordered: bool) -> Application:
    """One of the three programs."""
    return Application(name, ("silo/transactions.h", f"silo/{source}"), "transactions", range(1, 32_001),
                       {"small": 600, "medium": 4_000, "large": 32_000}, functools.partial(problem, is_ordered))


FLAT = application("silo", "flat.c", True)
NESTED = application("silo-nested", "nested.c", False)
COARSE = application("silo-coarse", "coarse.c", False)
