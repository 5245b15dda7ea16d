/* Refuses each allocation of each call in turn: test_memory FILE..
 *
 * It is linked so that the library's malloc and realloc are the ones below. One allocation is refused, or
 * it and all that follow. A call has to answer GAMEFILE_NOMEM, and to leave the buffer as it was, or to
 * answer as if nothing had been refused; and the next call, with nothing refused, has to answer so too. A
 * file that is refused is refused so, or memory runs out before the place of its refusal. The last line is
 * 'N passed, M failed'. */
#include "gamefile.h"

#include <stdio.h>
#include <stdlib.h>
#include <string.h>

enum { CALLS = 12, EXPLAIN = 11, ROOM = 1 << 16 };

void *__real_malloc(size_t n);
void *__real_realloc(void *at, size_t n);

static const unsigned long ALL = (unsigned long)-1;

/* How many allocations succeed before some are refused, and how many these are. */
static unsigned long left, refusals;

static int is_refused(void)
{
    if (left > 0) {
        left--;
        return 0;
    }
    if (refusals == 0)
        return 0;
    refusals--;
    return 1;
}

void *__wrap_malloc(size_t n)
{
    return is_refused() ? NULL : __real_malloc(n);
}

void *__wrap_realloc(void *at, size_t n)
{
    return is_refused() ? NULL : __real_realloc(at, n);
}

/* What a call answers, with the text or the pairs in its buffer. */
typedef struct {
    gamefile_status status;
    gamefile_fault fault;
    uint8_t out[ROOM];
} answer;

/* Makes a call on a file, and on the same with a line more. */
static void make(int call, const uint8_t *game, size_t n, answer *to)
{
    uint8_t *out = to->out;
    gamefile_fault *fault = &to->fault;
    gamefile_kind kind = (gamefile_kind)0;
    memset(to, 0, sizeof *to);
    switch (call) {
    case 0:
        to->status = gamefile_check(game, n, &kind, fault);
        out[0] = (uint8_t)kind;
        break;
    case 1:
        to->status = gamefile_canonical(game, n, 0, out, ROOM, NULL, fault);
        break;
    case 2:
        to->status = gamefile_canonical(game, n, GAMEFILE_NO_NAMES, out, ROOM, NULL, fault);
        break;
    case 3:
        to->status = gamefile_hash(game, n, 0, (char *)out, fault);
        break;
    case 4:
        to->status = gamefile_hash(game, n, GAMEFILE_NO_NAMES, (char *)out, fault);
        break;
    case 5:
        to->status = gamefile_table(game, n, 0, out, ROOM, NULL, fault, NULL);
        break;
    case 6:
        to->status = gamefile_table(game, n, GAMEFILE_REDUCED, out, ROOM, NULL, fault, NULL);
        break;
    case 7:
        to->status = gamefile_same(game, n, game, n, 0, fault, NULL);
        break;
    case 8:
        to->status = gamefile_same(game, n, game, n - 1, 0, fault, NULL);
        break;
    case 9:
        to->status = gamefile_same(game, n, game, n - 1, GAMEFILE_NO_NAMES, fault, NULL);
        break;
    case EXPLAIN:
        to->status = gamefile_explain(game, n, "game", out, ROOM, NULL, fault);
        break;
    default:
        to->status = gamefile_renumbering(game, n, game, n - 1, (gamefile_pair *)(void *)out,
                                          ROOM / sizeof(gamefile_pair), NULL, fault, NULL);
        break;
    }
}

static int is_same(const answer *a, const answer *b)
{
    return a->status == b->status && memcmp(&a->fault, &b->fault, sizeof a->fault) == 0
           && memcmp(a->out, b->out, ROOM) == 0;
}

/* Whether memory ran out, and nothing was written; in a file that is refused, before its refusal, or for
 * its explanation. */
static int is_out_of_memory(int call, const answer *a, const answer *expected)
{
    static const uint8_t zeros[ROOM];
    int is_refusal = memcmp(&a->fault, &expected->fault, sizeof a->fault) == 0;
    if (a->status != GAMEFILE_NOMEM || memcmp(a->out, zeros, ROOM) != 0)
        return 0;
    if (call == EXPLAIN && expected->status == GAMEFILE_REFUSED && is_refusal)
        return 1;
    return (a->fault.code == 0 || a->fault.code == 19)
           && (expected->status != GAMEFILE_REFUSED || a->fault.end <= expected->fault.start);
}

/* Whether a call answers well whichever allocation is refused first, and how many are. */
static int is_well(int call, const uint8_t *game, size_t n, unsigned long count)
{
    static answer expected, found;
    unsigned long number;
    left = ALL;
    make(call, game, n, &expected);
    if (expected.status == GAMEFILE_NOMEM || expected.status == GAMEFILE_TOO_SMALL)
        return 0;
    for (number = 0;; number++) {
        left = number;
        refusals = count;
        make(call, game, n, &found);
        /* Each call needs some memory, of each file. */
        if (refusals == count)
            return number > 0 && is_same(&found, &expected);
        if (!is_out_of_memory(call, &found, &expected) && !is_same(&found, &expected))
            return 0;
        left = ALL;
        make(call, game, n, &found);
        if (!is_same(&found, &expected))
            return 0;
    }
}

int main(int argc, char **argv)
{
    static uint8_t game[ROOM];
    unsigned long passed = 0, failed = 0;
    int i, call;
    for (i = 1; i < argc; i++) {
        FILE *f = fopen(argv[i], "rb");
        size_t n;
        if (f == NULL)
            abort();
        n = fread(game, 1, sizeof game, f);
        fclose(f);
        for (call = 0; call < CALLS; call++) {
            if (is_well(call, game, n, 1) && is_well(call, game, n, ALL)) {
                passed++;
            } else {
                failed++;
                printf("FAILED %s: call %d\n", argv[i], call);
            }
        }
    }
    printf("%lu passed, %lu failed\n", passed, failed);
    return failed != 0 || passed == 0;
}
