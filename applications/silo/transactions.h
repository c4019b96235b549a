/* A database, and the two kinds of transactions that it is given most of: new orders and payments. A new order is a
   task for its head and one for each line, a payment is one task. The timestamps of an order's lines are above its
   own. */
#include "task.h"
#include "sizes.h"

/* A new order wishes for the `count` lines from `first_wish` on; a payment is of the amount `count`. */
struct transaction {
    uint32_t is_payment, warehouse, district, customer, count, first_wish;
} transactions[TRANSACTIONS];
struct wish { uint32_t item, warehouse, quantity; } wishes[WISHES];
uint32_t prices[ITEMS];

struct warehouse { uint32_t paid, unused[7]; } warehouses[WAREHOUSES];
struct district { uint32_t paid, next_order, unused[6]; } districts[WAREHOUSES * DISTRICTS];
struct customer { int32_t balance; uint32_t paid, payments, unused; } customers[WAREHOUSES * DISTRICTS * CUSTOMERS];
struct stock { uint32_t quantity, sold, orders, from_afar; } stocks[WAREHOUSES * ITEMS];
struct order { uint32_t customer, transaction, lines, total; } orders[WAREHOUSES * DISTRICTS * MOST_ORDERS];
struct line { uint32_t item, quantity, amount; } lines[WAREHOUSES * DISTRICTS * MOST_ORDERS * MOST_LINES];
struct payment { uint32_t customer, amount; } payments[TRANSACTIONS];

/* A line of an order: so much of an item is taken from the stock of a warehouse, which orders 91 when it gets low. */
static inline void take_line(uint32_t transaction, uint32_t number, uint32_t place)
{
    const struct wish *wish = &wishes[transactions[transaction].first_wish + number];
    struct stock *stock = &stocks[wish->warehouse * ITEMS + wish->item];
    uint32_t quantity = stock->quantity;
    stock->quantity = quantity - wish->quantity + (quantity >= wish->quantity + 10 ? 0 : 91);
    stock->sold += wish->quantity;
    stock->orders++;
    stock->from_afar += wish->warehouse != transactions[transaction].warehouse;
    uint32_t amount = wish->quantity * prices[wish->item];
    lines[place * MOST_LINES + number] = (struct line){wish->item, wish->quantity, amount};
    orders[place].total += amount;
}

/* The head of an order: its place among all orders. */
static inline uint32_t open_order(uint32_t transaction)
{
    const struct transaction *it = &transactions[transaction];
    uint32_t district = it->warehouse * DISTRICTS + it->district;
    uint32_t number = districts[district].next_order++;
    require(number < MOST_ORDERS);
    uint32_t place = district * MOST_ORDERS + number;
    orders[place].customer = it->customer;
    orders[place].transaction = transaction;
    orders[place].lines = it->count;
    return place;
}

TASK(take, uint32_t transaction, uint32_t number, uint32_t place)
{
    take_line(transaction, number, place);
}

TASK(order, uint32_t transaction, uint32_t, uint32_t, uint32_t ts)
{
    const struct transaction *it = &transactions[transaction];
    uint32_t place = open_order(transaction);
    for (uint32_t k = 0; k < it->count; k++)
        enqueue(take, ts + 1, transaction, k, place, .hint = wishes[it->first_wish + k].item);
}

TASK(pay, uint32_t transaction)
{
    const struct transaction *it = &transactions[transaction];
    uint32_t district = it->warehouse * DISTRICTS + it->district;
    warehouses[it->warehouse].paid += it->count;
    districts[district].paid += it->count;
    struct customer *customer = &customers[district * CUSTOMERS + it->customer];
    customer->balance -= it->count;
    customer->paid += it->count;
    customer->payments++;
    payments[transaction] = (struct payment){district * CUSTOMERS + it->customer, it->count};
}

/* The task of a transaction. */
static inline const struct task_code *task_of(uint32_t transaction)
{
    return transactions[transaction].is_payment ? pay : order;
}
