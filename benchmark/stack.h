#ifndef STACK_H
#define STACK_H

#include <stddef.h>

/* How many bytes of stack `work(data)` takes, below its own frame: it is run on a stack that was painted before. */
size_t stack_of(void (*work)(void *), void *data);

#endif
