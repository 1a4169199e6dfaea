/* What bench/turns asks of a library: calls under their names, each feeding the next, and all that they leave. */
#include <stdbool.h>
#include <stddef.h>
#include <stdint.h>

struct call {
    const char *name;
    void (*work)(void);
    int times;          /* calls in a turn */
    bool stack;         /* whether its stack is told too */
};

struct side {
    const struct call *calls;
    int count;
    uint32_t (*version)(void);
    void (*begin)(void);
    uint64_t (*refused)(void);
    const void *left;   /* what the calls left, to be compared */
    size_t size;
};

extern const struct side after, before;
