/* The stack of a call, from the frame that calls it downwards: a thread on a painted stack makes the call, and looks how far down the paint is gone
   before it ends, since ending takes some of its own. */
#include <pthread.h>
#include <stdint.h>
#include <stdlib.h>
#include <string.h>

struct painted {
    void (*work)(void);
    uint8_t *stack;
    size_t depth;
};

static void *called(void *given)
{
    struct painted *p = given;
    const uint8_t *top = __builtin_frame_address(0), *low = p->stack;
    p->work();
    while (low < top && *low == 0xa5) low++;
    p->depth = (size_t)(top - low);
    return NULL;
}

static size_t depth_with(void (*work)(void))
{
    const size_t size = 1 << 20;
    struct painted p = {work, aligned_alloc(4096, size), 0};
    pthread_attr_t attributes;
    pthread_t thread;
    if (!p.stack) abort();
    memset(p.stack, 0xa5, size);
    pthread_attr_init(&attributes);
    pthread_attr_setstack(&attributes, p.stack, size);
    if (pthread_create(&thread, &attributes, called, &p)) abort();
    pthread_join(thread, NULL);
    free(p.stack);
    return p.depth;
}

static void nothing(void) {}

/* What the call takes more than one that does nothing. */
static size_t depth(void (*work)(void)) { return depth_with(work) - depth_with(nothing); }
