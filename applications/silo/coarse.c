/* Transactions in an unordered domain: each is one task. */
#include "transactions.h"
// image: root unordered
// image: task begin
// image: data transactions transactions.bin
// image: data wishes wishes.bin
// image: data prices prices.bin

TASK(order_at_once, uint32_t transaction)
{
    uint32_t place = open_order(transaction);
    for (uint32_t k = 0; k < transactions[transaction].count; k++)
        take_line(transaction, k, place);
}

TASK(feed, uint32_t transaction, uint32_t end)
{
    if (spread(feed, 0, transaction, end))
        return;
    for (; transaction < end; transaction++)
        enqueue(transactions[transaction].is_payment ? pay : order_at_once, 0, transaction,
                .hint = transactions[transaction].warehouse);
}

TASK(begin)
{
    enqueue(feed, 0, 0, TRANSACTIONS);
}
