/* A second subdomain. */
#include "task.h"
// image: task start
// expect: end trap 12

TASK(start)
{
    make_subdomain(ORDERED);
    make_subdomain(ORDERED);
}
