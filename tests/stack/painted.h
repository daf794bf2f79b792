/* A call on a painted stack: the stack is filled with a paint, the call runs on it, and what is no longer paint was used.
   Include it once, after _DEFAULT_SOURCE or _GNU_SOURCE is defined. */
#include <stddef.h>
#include <stdint.h>
#include <string.h>
#include <ucontext.h>

enum { PAINTED = 1 << 20 };
static uint8_t painted[PAINTED] __attribute__((aligned(64)));
static ucontext_t painted_from, painted_on;

static size_t painted_use(void (*call)(void), int paint)
{
    size_t clean = 0;
    memset(painted, paint, sizeof painted);
    getcontext(&painted_on);
    painted_on.uc_stack.ss_sp = painted;
    painted_on.uc_stack.ss_size = sizeof painted;
    painted_on.uc_link = &painted_from;
    makecontext(&painted_on, call, 0);
    swapcontext(&painted_from, &painted_on);
    while (clean < PAINTED && painted[clean] == paint) clean++;
    return PAINTED - clean;
}
