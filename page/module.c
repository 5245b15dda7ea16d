/* What the page's module has beside the proved calls: its memory, and the texts of library/gamefile.c.
 *
 * The calls take and give back blocks, and the page takes a block for each of its inputs and outputs. A
 * block has 2^k bytes after its head, which is what a vector that doubles asks for. One that is given
 * back waits for the next of its size. Before each call the page frees all blocks at once. */
#include "gamefile.h"

#include <string.h>

#define EXPORT(name) __attribute__((export_name(name)))
#define PAGE 65536

typedef struct head {
    size_t order;
    struct head *next;
} head;

/* How the proved calls take what they ask for. */
typedef struct {
    uint64_t ok;
    void *at;
} tried;

extern char __heap_base; /* of the linker */

static head *waiting[64];
static size_t used;  /* the bytes after __heap_base that blocks have taken */
static size_t limit; /* and the most that they may take */

EXPORT("page_begin") void page_begin(size_t most)
{
    memset(waiting, 0, sizeof waiting);
    used = 0;
    limit = most;
}

static size_t order_of(size_t n)
{
    return n <= 16 ? 4 : 64 - (size_t)__builtin_clzll(n - 1);
}

/* A block that no call had before, of this size with its head; NULL where there is no more memory. */
static head *fresh(size_t size)
{
    char *at = (char *)(((uintptr_t)&__heap_base + 15) & ~(uintptr_t)15) + used;
    size_t end = (size_t)__builtin_wasm_memory_size(0) * PAGE;
    if (size > limit - used)
        return NULL;
    if ((uintptr_t)at + size > end) {
        size_t pages = ((uintptr_t)at + size - end + PAGE - 1) / PAGE;
        /* Growing is slow, so it is by 4 MiB at least. */
        if (__builtin_wasm_memory_grow(0, pages < 64 ? 64 : pages) == (size_t)-1)
            return NULL;
    }
    used += size;
    return (head *)at;
}

EXPORT("page_take") void *page_take(size_t n)
{
    size_t order;
    head *it;
    if (n > limit)
        return NULL;
    order = order_of(n);
    it = waiting[order];
    if (it != NULL)
        waiting[order] = it->next;
    else
        it = fresh(sizeof *it + ((size_t)1 << order));
    if (it == NULL)
        return NULL;
    it->order = order;
    return it + 1;
}

static tried answer(void *at)
{
    tried it = {at != NULL, at};
    return it;
}

/* The proved calls ask for no alignment above 16, which each block has. */
tried rattle_alloc(size_t n, size_t alignment)
{
    (void)alignment;
    return answer(page_take(n));
}

void rattle_dealloc(void *at)
{
    head *it = (head *)at - 1;
    it->next = waiting[it->order];
    waiting[it->order] = it;
}

/* The first `kept` bytes stay as they are. If there is no memory, so does the block. */
tried rattle_realloc(void *at, size_t kept, size_t n, size_t alignment)
{
    void *to;
    (void)alignment;
    if (n <= limit && order_of(n) == ((head *)at - 1)->order)
        return answer(at);
    to = page_take(n);
    if (to != NULL) {
        memcpy(to, at, kept);
        rattle_dealloc(at);
    }
    return answer(to);
}

/* The texts, which end in a zero byte; NULL if there is no hint. */
EXPORT("page_version") const char *page_version(void)
{
    return gamefile_version();
}

EXPORT("page_message") const char *page_message(uint32_t code, uint32_t expected)
{
    return gamefile_message(code, expected);
}

EXPORT("page_hint") const char *page_hint(uint32_t code, uint32_t expected)
{
    return gamefile_hint(code, expected);
}
