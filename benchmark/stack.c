#define _XOPEN_SOURCE 700

#include "stack.h"

#include <string.h>
#include <ucontext.h>

enum { SIZE = 1 << 18, PAINT = 0xA5 };

static unsigned char stack[SIZE];
static ucontext_t here, there;
static void (*job)(void *);
static void *job_data;

static void start(void)
{
    job(job_data);
}

static void nothing(void *data)
{
    (void)data;
}

/* Stacks grow downward here: what is still painted at the low end was never reached. */
static size_t reached(void (*work)(void *), void *data)
{
    size_t untouched = 0;
    job = work;
    job_data = data;
    memset(stack, PAINT, SIZE);
    getcontext(&there);
    there.uc_stack.ss_sp = stack;
    there.uc_stack.ss_size = SIZE;
    there.uc_link = &here;
    makecontext(&there, start, 0);
    swapcontext(&here, &there);
    while (untouched < SIZE && stack[untouched] == PAINT)
        untouched++;
    return SIZE - untouched;
}

size_t stack_of(void (*work)(void *), void *data)
{
    return reached(work, data) - reached(nothing, NULL);
}
