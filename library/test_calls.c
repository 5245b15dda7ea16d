/* Runs every call of gamefile.h: test THREADS FOLDER..
 *
 * A folder has game files NAME.efg and NAME.nfg, each with its canonical text, NAME.out, or with its
 * refusal as the program writes it, NAME.err. Each thread goes through all of them. The last line is
 * 'N passed, M failed'. */
#define _POSIX_C_SOURCE 200809L
#include "gamefile.h"

#include <dirent.h>
#include <pthread.h>
#include <stdio.h>
#include <stdlib.h>
#include <string.h>

#define MOST_FILES 4096
#define MOST_THREADS 64

typedef struct {
    uint8_t *at;
    size_t n;
} bytes;

typedef struct {
    char path[512];
    bytes game;
    bytes expected;
    int is_right;
} file;

typedef struct {
    unsigned long passed;
    unsigned long failed;
} score;

static file files[MOST_FILES];
static size_t file_count = 0;

static void expect(score *s, int holds, const char *path, const char *what)
{
    if (holds) {
        s->passed++;
    } else {
        s->failed++;
        printf("FAILED %s: %s\n", path, what);
    }
}

static bytes read_file(const char *path)
{
    bytes b = {NULL, 0};
    FILE *f = fopen(path, "rb");
    if (f == NULL)
        return b;
    if (fseek(f, 0, SEEK_END) == 0) {
        b.n = (size_t)ftell(f);
        rewind(f);
        /* Of its exact length, so that a sanitizer sees a byte read past the end. */
        b.at = (uint8_t *)malloc(b.n > 0 ? b.n : 1);
        if (b.at == NULL || fread(b.at, 1, b.n, f) != b.n)
            abort();
    }
    fclose(f);
    return b;
}

static bytes beside(const char *path, const char *suffix)
{
    char other[512];
    snprintf(other, sizeof other, "%.*s%s", (int)strlen(path) - 4, path, suffix);
    return read_file(other);
}

static void list_folder(const char *folder)
{
    DIR *d = opendir(folder);
    struct dirent *e;
    if (d == NULL)
        return;
    while ((e = readdir(d)) != NULL && file_count < MOST_FILES) {
        file *f = &files[file_count];
        size_t n = strlen(e->d_name);
        if (n < 5 || (strcmp(e->d_name + n - 4, ".efg") != 0 && strcmp(e->d_name + n - 4, ".nfg") != 0))
            continue;
        if ((size_t)snprintf(f->path, sizeof f->path, "%s/%s", folder, e->d_name) >= sizeof f->path)
            continue;
        f->game = read_file(f->path);
        f->expected = beside(f->path, ".out");
        f->is_right = f->expected.at != NULL;
        if (!f->is_right)
            f->expected = beside(f->path, ".err");
        if (f->game.at != NULL && f->expected.at != NULL)
            file_count++;
    }
    closedir(d);
}

/* Whether a fault is that of a line such as `E4 at 40..43`. */
static int is_fault(const gamefile_fault *fault, bytes line)
{
    char text[128];
    int n = snprintf(text, sizeof text, "E%u at %zu..%zu\n", (unsigned)fault->code, fault->start,
                     fault->end);
    return n > 0 && (size_t)n == line.n && memcmp(text, line.at, line.n) == 0;
}

/* The canonical text of a file, or its table with the flags of a table; in a buffer of its exact
 * length. */
static bytes text_of(score *s, const file *f, int is_table, unsigned flags, gamefile_status *status)
{
    bytes b = {NULL, 0};
    size_t needed = 0, again = 0;
    gamefile_fault fault;
    uint64_t profile = 0;
    *status = is_table
                  ? gamefile_table(f->game.at, f->game.n, flags, NULL, 0, &needed, &fault, &profile)
                  : gamefile_canonical(f->game.at, f->game.n, flags, NULL, 0, &needed, &fault);
    if (*status != GAMEFILE_TOO_SMALL) {
        expect(s, *status == GAMEFILE_TOO_MANY_PROFILES || *status == GAMEFILE_OVERFLOW, f->path,
               "a right file has a text, or a tree no table");
        expect(s, (*status == GAMEFILE_OVERFLOW) == (profile > 0), f->path, "profile");
        return b;
    }
    b.n = needed;
    b.at = (uint8_t *)malloc(needed);
    if (b.at == NULL)
        abort();
    *status = is_table ? gamefile_table(f->game.at, f->game.n, flags, b.at, b.n, &again, NULL, NULL)
                       : gamefile_canonical(f->game.at, f->game.n, flags, b.at, b.n, &again, NULL);
    expect(s, *status == GAMEFILE_OK && again == needed, f->path, "the length that was told is needed");
    return b;
}

static int is_same_text(bytes a, bytes b)
{
    return a.n == b.n && memcmp(a.at, b.at, a.n) == 0;
}

/* Whether pairs of a file and its canonical text, in which numbers count from 1 in order of first use, are
 * those of the two texts the other way round. */
static int are_canonical(const gamefile_pair *pairs, const gamefile_pair *back, size_t n)
{
    uint32_t number = 0;
    size_t i;
    for (i = 0; i < n; i++) {
        int follows = i > 0 && pairs[i].kind == pairs[i - 1].kind && pairs[i].player == pairs[i - 1].player;
        number = follows ? number + 1 : 1;
        if (pairs[i].second != number || pairs[i].first == 0
            || (pairs[i].kind != GAMEFILE_SET && (pairs[i].kind != GAMEFILE_OUTCOME || pairs[i].player != 0))
            || back[i].kind != pairs[i].kind || back[i].player != pairs[i].player
            || back[i].first != pairs[i].second || back[i].second != pairs[i].first)
            return 0;
    }
    return 1;
}

static void try_renumbering(score *s, const file *f)
{
    gamefile_pair *pairs, *back;
    size_t needed = 0, again = 0;
    gamefile_status status = gamefile_renumbering(f->game.at, f->game.n, f->expected.at, f->expected.n, NULL,
                                                  0, &needed, NULL, NULL);
    expect(s, status == (needed > 0 ? GAMEFILE_TOO_SMALL : GAMEFILE_OK), f->path, "how many pairs");
    expect(s, needed == 0 || f->expected.at[0] == 'E', f->path, "a table has no pairs");
    pairs = (gamefile_pair *)calloc(needed + 1, sizeof *pairs);
    back = (gamefile_pair *)calloc(needed + 1, sizeof *back);
    if (pairs == NULL || back == NULL)
        abort();
    expect(s, gamefile_renumbering(f->game.at, f->game.n, f->expected.at, f->expected.n, pairs, needed, &again,
                                   NULL, NULL) == GAMEFILE_OK && again == needed, f->path, "pairs");
    expect(s, gamefile_renumbering(f->expected.at, f->expected.n, f->game.at, f->game.n, back, needed + 1,
                                   &again, NULL, NULL) == GAMEFILE_OK && again == needed, f->path, "back");
    expect(s, are_canonical(pairs, back, needed) && back[needed].kind == 0, f->path, "canonical numbers");
    free(pairs);
    free(back);
}

static void try_right(score *s, const file *f)
{
    static const unsigned table_flags[] = {0, GAMEFILE_REDUCED};
    gamefile_kind kind = (gamefile_kind)0;
    gamefile_fault fault;
    gamefile_status status;
    char hash[65], other[65];
    bytes text;
    size_t i;
    int is_tree = f->expected.at[0] == 'E';

    expect(s, gamefile_explain(f->game.at, f->game.n, f->path, NULL, 0, NULL, NULL) == GAMEFILE_OK, f->path,
           "nothing to explain");
    expect(s, gamefile_check(f->game.at, f->game.n, &kind, &fault) == GAMEFILE_OK, f->path, "check");
    expect(s, kind == (is_tree ? GAMEFILE_TREE : GAMEFILE_TABLE), f->path, "kind");
    text = text_of(s, f, 0, 0, &status);
    expect(s, text.at != NULL && is_same_text(text, f->expected), f->path, "canonical text");
    expect(s, gamefile_hash(f->game.at, f->game.n, 0, hash, NULL) == GAMEFILE_OK, f->path, "hash");
    expect(s, gamefile_hash(f->expected.at, f->expected.n, 0, other, NULL) == GAMEFILE_OK
                  && strcmp(hash, other) == 0 && strlen(hash) == 64, f->path, "hash of the text");
    expect(s, gamefile_same(f->game.at, f->game.n, f->expected.at, f->expected.n, 0, NULL, NULL)
                  == GAMEFILE_OK, f->path, "same as its canonical text");
    try_renumbering(s, f);
    free(text.at);
    text = text_of(s, f, 0, GAMEFILE_NO_NAMES, &status);
    expect(s, text.at != NULL && gamefile_same(f->game.at, f->game.n, text.at, text.n,
                  GAMEFILE_NO_NAMES, NULL, NULL) == GAMEFILE_OK, f->path, "same without its names");
    free(text.at);
    for (i = 0; i < 2; i++) {
        text = text_of(s, f, 1, table_flags[i], &status);
        if (status == GAMEFILE_OK) {
            expect(s, gamefile_check(text.at, text.n, &kind, NULL) == GAMEFILE_OK
                          && kind == GAMEFILE_TABLE, f->path, "a table");
            expect(s, is_tree || is_same_text(text, f->expected), f->path, "a table's own text");
        }
        free(text.at);
    }
}

/* The explanation of a refusal has the place and the line of the program, and fits its exact length. */
static void try_explanation(score *s, const file *f)
{
    gamefile_fault fault = {0, 0, 0, 0}, again_fault = {0, 0, 0, 0};
    char expected[128];
    size_t needed = 0, again = 0;
    char *text;
    expect(s, gamefile_explain(f->game.at, f->game.n, f->path, NULL, 0, &needed, &fault) == GAMEFILE_TOO_SMALL
                  && is_fault(&fault, f->expected), f->path, "how long an explanation is");
    expect(s, needed <= strlen(f->path) + 1024, f->path, "an explanation is short");
    text = (char *)malloc(needed + 1);
    if (text == NULL)
        abort();
    text[needed] = '#';
    expect(s, gamefile_explain(f->game.at, f->game.n, f->path, (uint8_t *)text, needed, &again, &again_fault)
                  == GAMEFILE_REFUSED && again == needed && is_fault(&again_fault, f->expected), f->path,
           "refused by explain");
    expect(s, text[needed] == '#', f->path, "the end of the buffer");
    text[needed] = '\0';
    snprintf(expected, sizeof expected, ": %.*s: ", (int)f->expected.n - 1, (const char *)f->expected.at);
    expect(s, strlen(text) == needed && strncmp(text, f->path, strlen(f->path)) == 0
                  && strstr(text, expected) != NULL && text[needed - 1] == '\n', f->path, "explanation");
    free(text);
}

static void try_refused(score *s, const file *f)
{
    static const uint8_t game[] = "NFG 1 R \"\" { \"A\" } { 1 } 0";
    gamefile_fault fault = {0, 0, 0, 0};
    gamefile_pair pair = {7, 7, 7, 7};
    uint8_t out[16] = "as it was";
    char hash[65];
    size_t needed = 7;
    int which = 7;

    expect(s, gamefile_check(f->game.at, f->game.n, NULL, &fault) == GAMEFILE_REFUSED
                  && is_fault(&fault, f->expected), f->path, "refused by check");
    expect(s, (fault.code == 3) == (fault.expected >= 1 && fault.expected <= 11), f->path, "expected");
    expect(s, strcmp(gamefile_message(fault.code, fault.expected), "no such code") != 0, f->path,
           "message");
    memset(&fault, 0, sizeof fault);
    expect(s, gamefile_canonical(f->game.at, f->game.n, 0, out, sizeof out, &needed, &fault)
                  == GAMEFILE_REFUSED && is_fault(&fault, f->expected), f->path, "refused by canonical");
    expect(s, needed == 7 && strcmp((char *)out, "as it was") == 0, f->path, "the buffer stays");
    memset(&fault, 0, sizeof fault);
    expect(s, gamefile_hash(f->game.at, f->game.n, 0, hash, &fault) == GAMEFILE_REFUSED
                  && is_fault(&fault, f->expected), f->path, "refused by hash");
    memset(&fault, 0, sizeof fault);
    expect(s, gamefile_table(f->game.at, f->game.n, 0, out, sizeof out, &needed, &fault, NULL)
                  == GAMEFILE_REFUSED && is_fault(&fault, f->expected), f->path, "refused by table");
    memset(&fault, 0, sizeof fault);
    expect(s, gamefile_same(f->game.at, f->game.n, game, sizeof game - 1, 0, &fault, &which)
                  == GAMEFILE_REFUSED && which == 0 && is_fault(&fault, f->expected), f->path,
           "refused as the first of two");
    memset(&fault, 0, sizeof fault);
    expect(s, gamefile_same(game, sizeof game - 1, f->game.at, f->game.n, 0, &fault, &which)
                  == GAMEFILE_REFUSED && which == 1 && is_fault(&fault, f->expected), f->path,
           "refused as the second of two");
    memset(&fault, 0, sizeof fault);
    expect(s, gamefile_renumbering(f->game.at, f->game.n, game, sizeof game - 1, &pair, 1, &needed, &fault,
                                   &which) == GAMEFILE_REFUSED && which == 0
                  && is_fault(&fault, f->expected), f->path, "refused by renumbering");
    memset(&fault, 0, sizeof fault);
    expect(s, gamefile_renumbering(game, sizeof game - 1, f->game.at, f->game.n, &pair, 1, &needed, &fault,
                                   &which) == GAMEFILE_REFUSED && which == 1
                  && is_fault(&fault, f->expected), f->path, "refused by renumbering as the second");
    expect(s, needed == 7 && pair.kind == 7, f->path, "the pairs stay");
}

/* What no file shows of explanations: null pointers, names, and a valid file. */
static void try_explain_layer(score *s)
{
    static const uint8_t game[] = "NFG 1 R \"a\" { \"A\" } { 1 } 2";
    static const char unnamed[] = "<input>:1:1: E3 at 0..0: expected `NFG` or `EFG` at the start of the file, "
                                  "found the end of the file\n  1 | \n    | ^\n";
    static const char shown[] = "a?[31m\xef\xbf\xbd:1:1: ";
    gamefile_fault fault = {7, 7, 7, 7};
    uint8_t out[512] = "as it was";
    size_t n = sizeof game - 1, needed = 7;

    expect(s, gamefile_explain(game, n, "x", out, sizeof out, &needed, &fault) == GAMEFILE_OK && needed == 7
                  && fault.code == 7 && strcmp((char *)out, "as it was") == 0, "explain", "a valid file");
    expect(s, gamefile_explain(game, n - 1, "x", out, 4, &needed, NULL) == GAMEFILE_TOO_SMALL && needed > 4
                  && strcmp((char *)out, "as it was") == 0, "explain", "too small");
    expect(s, gamefile_explain(NULL, 0, NULL, out, sizeof out, &needed, NULL) == GAMEFILE_REFUSED
                  && needed == sizeof unnamed - 1 && memcmp(out, unnamed, needed) == 0, "NULL", "explain");
    expect(s, gamefile_explain(NULL, 0, "a\033[31m\xff", out, sizeof out, NULL, NULL) == GAMEFILE_REFUSED
                  && memcmp(out, shown, sizeof shown - 1) == 0, "explain", "names");
    expect(s, gamefile_explain(NULL, 1, "x", NULL, 0, NULL, NULL) == GAMEFILE_MISUSE
                  && gamefile_explain(game, n, "x", NULL, 1, NULL, NULL) == GAMEFILE_MISUSE, "NULL",
           "explain, not empty");
}

/* What no file shows: null pointers, flags, and numbers that are never changed. */
static void try_layer(score *s)
{
    static const uint8_t game[] = "NFG 1 R \"a\" { \"A\" } { 1 } 2";
    static const uint8_t other[] = "NFG 1 R \"b\" { \"A\" } { 1 } 2";
    static const uint8_t tree[] = "EFG 2 R \"\" { \"A\" } p \"\" 1 3 \"\" { \"x\" } 0 t \"\" 5 \"\" { 1 }";
    size_t n = sizeof game - 1;
    gamefile_fault fault = {0, 0, 0, 0};
    gamefile_kind kind;
    gamefile_pair pair = {7, 7, 7, 7};
    uint8_t out[4];
    size_t needed = 0;
    char hash[65];
    int which = 7;

    expect(s, GAMEFILE_OK == 0 && GAMEFILE_DIFFERENT == 1 && GAMEFILE_REFUSED == 2
                  && GAMEFILE_MISUSE == 3 && GAMEFILE_NOMEM == 5 && GAMEFILE_TOO_MANY_PROFILES == 6
                  && GAMEFILE_OVERFLOW == 7 && GAMEFILE_TOO_SMALL == 8, "header", "statuses");
    expect(s, sizeof(gamefile_fault) == 8 + 2 * sizeof(size_t) && offsetof(gamefile_fault, expected) == 4
                  && offsetof(gamefile_fault, start) == 8 && sizeof(gamefile_kind) == 4
                  && sizeof(gamefile_status) == 4, "header", "layout");
    expect(s, sizeof(gamefile_pair) == 16 && offsetof(gamefile_pair, player) == 4
                  && offsetof(gamefile_pair, first) == 8 && offsetof(gamefile_pair, second) == 12
                  && GAMEFILE_SET == 1 && GAMEFILE_OUTCOME == 2, "header", "pairs");
    expect(s, strcmp(gamefile_version(), GAMEFILE_VERSION) == 0, "header", "version");
    expect(s, gamefile_check(NULL, 0, NULL, &fault) == GAMEFILE_REFUSED && fault.code == 3
                  && fault.expected == GAMEFILE_WHAT_FORMAT && fault.end == 0, "NULL", "empty");
    expect(s, gamefile_check(NULL, 1, &kind, &fault) == GAMEFILE_MISUSE, "NULL", "not empty");
    expect(s, gamefile_check(game, n, NULL, NULL) == GAMEFILE_OK, "NULL", "no answer expected");
    try_explain_layer(s);
    expect(s, gamefile_canonical(NULL, 0, 0, NULL, 0, NULL, NULL) == GAMEFILE_REFUSED, "NULL",
           "canonical");
    expect(s, gamefile_canonical(game, n, 0, NULL, 1, NULL, NULL) == GAMEFILE_MISUSE, "NULL", "buffer");
    expect(s, gamefile_canonical(game, n, 0, out, sizeof out, &needed, NULL) == GAMEFILE_TOO_SMALL
                  && needed > sizeof out, "buffer", "too small");
    expect(s, gamefile_canonical(game, n, GAMEFILE_REDUCED, out, sizeof out, NULL, NULL)
                  == GAMEFILE_MISUSE, "flags", "canonical");
    expect(s, gamefile_hash(NULL, 0, 0, hash, NULL) == GAMEFILE_REFUSED, "NULL", "hash");
    expect(s, gamefile_hash(game, n, 0, NULL, NULL) == GAMEFILE_MISUSE, "NULL", "hash's buffer");
    expect(s, gamefile_hash(game, n, 4, hash, NULL) == GAMEFILE_MISUSE, "flags", "hash");
    expect(s, gamefile_table(NULL, 0, 0, NULL, 0, NULL, NULL, NULL) == GAMEFILE_REFUSED, "NULL", "table");
    expect(s, gamefile_table(game, n, GAMEFILE_NO_NAMES, NULL, 0, NULL, NULL, NULL) == GAMEFILE_MISUSE,
           "flags", "table");
    expect(s, gamefile_same(NULL, 0, NULL, 0, 0, NULL, NULL) == GAMEFILE_REFUSED, "NULL", "same");
    expect(s, gamefile_same(game, n, NULL, 0, 0, &fault, &which) == GAMEFILE_REFUSED && which == 1,
           "NULL", "second");
    expect(s, gamefile_same(game, n, other, n, 0, NULL, NULL) == GAMEFILE_DIFFERENT, "same", "title");
    expect(s, gamefile_same(game, n, other, n, GAMEFILE_NO_NAMES, NULL, NULL) == GAMEFILE_OK, "same",
           "title aside");
    expect(s, gamefile_same(game, n, other, n, 2, NULL, NULL) == GAMEFILE_MISUSE, "flags", "same");
    expect(s, gamefile_renumbering(NULL, 0, NULL, 0, NULL, 0, NULL, NULL, NULL) == GAMEFILE_REFUSED, "NULL",
           "renumbering");
    expect(s, gamefile_renumbering(game, n, game, n, NULL, 1, NULL, NULL, NULL) == GAMEFILE_MISUSE
                  && gamefile_renumbering(NULL, 1, game, n, NULL, 0, NULL, NULL, NULL) == GAMEFILE_MISUSE
                  && gamefile_renumbering(game, n, NULL, 1, NULL, 0, NULL, NULL, NULL) == GAMEFILE_MISUSE
                  && gamefile_renumbering(game, n, game, n, &pair, SIZE_MAX, NULL, NULL, NULL)
                         == GAMEFILE_MISUSE, "NULL", "renumbering not empty");
    needed = 7;
    expect(s, gamefile_renumbering(game, n, other, n, &pair, 1, &needed, NULL, &which) == GAMEFILE_DIFFERENT
                  && needed == 7, "renumbering", "different");
    expect(s, gamefile_renumbering(tree, sizeof tree - 1, tree, sizeof tree - 1, &pair, 1, &needed, NULL, NULL)
                  == GAMEFILE_TOO_SMALL && needed == 2 && pair.kind == 7, "renumbering", "too small");
    expect(s, strcmp(gamefile_message(17, 0), "no such code") == 0
                  && strcmp(gamefile_message(1000, 0), "no such code") == 0, "message", "no code");
    expect(s, strcmp(gamefile_message(3, 0), "something else is expected here") == 0
                  && strstr(gamefile_message(14, 0), "cannot be worked out within 127 bits") != NULL, "message",
           "sentences");
    expect(s, gamefile_hint(5, 0) == NULL && gamefile_hint(13, 0) != NULL, "hint", "hints");
    expect(s, gamefile_hint(3, GAMEFILE_WHAT_NODE) == NULL && gamefile_hint(3, GAMEFILE_WHAT_END) == NULL,
           "hint", "no hint that another one may contradict");
}

static void *try_all(void *to)
{
    score *s = (score *)to;
    size_t i;
    try_layer(s);
    for (i = 0; i < file_count; i++) {
        if (files[i].is_right) {
            try_right(s, &files[i]);
        } else {
            try_refused(s, &files[i]);
            try_explanation(s, &files[i]);
        }
    }
    return NULL;
}

int main(int argc, char **argv)
{
    static score scores[MOST_THREADS];
    pthread_t threads[MOST_THREADS];
    score sum = {0, 0};
    int count = argc > 1 ? atoi(argv[1]) : 0;
    int i;
    size_t k;
    for (i = 2; i < argc; i++)
        list_folder(argv[i]);
    if (count < 1 || count > MOST_THREADS || file_count == 0) {
        fprintf(stderr, "usage: test THREADS FOLDER..\n");
        return 2;
    }
    for (i = 0; i < count; i++)
        if (pthread_create(&threads[i], NULL, try_all, &scores[i]) != 0)
            abort();
    for (i = 0; i < count; i++) {
        if (pthread_join(threads[i], NULL) != 0)
            abort();
        sum.passed += scores[i].passed;
        sum.failed += scores[i].failed;
    }
    for (k = 0; k < file_count; k++) {
        free(files[k].game.at);
        free(files[k].expected.at);
    }
    printf("%lu passed, %lu failed\n", sum.passed, sum.failed);
    return sum.failed != 0;
}
