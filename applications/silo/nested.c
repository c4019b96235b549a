/* Transactions in an unordered domain: each has an ordered subdomain of its own. */
#include "transactions.h"
// image: root unordered
// image: task begin
// image: data transactions transactions.bin
// image: data wishes wishes.bin
// image: data prices prices.bin

TASK(transact, uint32_t transaction)
{
    make_subdomain(ORDERED);
    enqueue_sub(task_of(transaction), 0, transaction, .hint = transactions[transaction].warehouse);
}

TASK(feed, uint32_t transaction, uint32_t end)
{
    if (spread(feed, 0, transaction, end))
        return;
    for (; transaction < end; transaction++)
        enqueue(transact, 0, transaction, .hint = transactions[transaction].warehouse);
}

TASK(begin)
{
    enqueue(feed, 0, 0, TRANSACTIONS);
}
