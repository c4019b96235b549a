/* A bank. Transfers come in any order, each as if alone. A transfer is a subdomain of two tasks, which are one for
   whoever looks from outside. The first of them leaves a receipt to the domain around, where no order is needed. */
#include "task.h"
// image: root unordered
// image: task transfer args 0 1 30
// image: task transfer args 1 2 50
// image: task transfer args 2 0 500
// image: task transfer args 3 1 10
// image: task transfer args 0 3 25
// image: window accounts

#define ACCOUNTS 4
int32_t accounts[ACCOUNTS] = {100, 40, 60, 10};
struct receipts { uint32_t done, refused; } receipts;

TASK(receipt, uint32_t is_done)
{
    if (is_done)
        receipts.done++;
    else
        receipts.refused++;
    int32_t sum = 0;
    for (uint32_t k = 0; k < ACCOUNTS; k++)
        sum += accounts[k];
    require(sum == 210); /* No money is ever on its way here. */
    emit(is_done ? '+' : '-');
}

TASK(deposit, uint32_t to, int32_t amount)
{
    accounts[to] += amount;
}

TASK(withdraw, uint32_t from, uint32_t to, int32_t amount)
{
    int32_t is_covered = accounts[from] >= amount;
    if (is_covered) {
        accounts[from] -= amount;
        enqueue(deposit, 1, to, amount);
    }
    enqueue_super(receipt, 0, is_covered);
}

TASK(transfer, uint32_t from, uint32_t to, uint32_t amount)
{
    make_subdomain(ORDERED);
    enqueue_sub(withdraw, 0, from, to, amount, .hint = from);
}
