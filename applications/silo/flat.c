/* Transactions in an ordered domain: each has timestamps of its own. */
#include "transactions.h"
// image: root ordered
// image: task begin
// image: data transactions transactions.bin
// image: data wishes wishes.bin
// image: data prices prices.bin

#define TIMESTAMPS 2

TASK(feed, uint32_t transaction, uint32_t end)
{
    if (spread(feed, TIMESTAMPS * transaction, transaction, end))
        return;
    for (; transaction < end; transaction++)
        enqueue(task_of(transaction), TIMESTAMPS * transaction, transaction,
                .hint = transactions[transaction].warehouse);
}

TASK(begin)
{
    enqueue(feed, 0, 0, TRANSACTIONS);
}
