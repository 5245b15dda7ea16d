/* gamefile.h: checks Gambit game files (.efg and .nfg), compares them, and writes them as canonical
 * text or as a table. See docs/LIBRARY.md.
 *
 * Bytes go in and bytes come out: a text is written into your buffer, without a zero byte at its
 * end. The library keeps no state, so you may make any call on any thread, and many at once. Inputs
 * are only read, and must not change during a call; NULL with a length of 0 is an empty input. A
 * buffer must not overlap an input.
 *
 * Codes, statuses and the other numbers below never change; later versions may add some. */
#ifndef GAMEFILE_H
#define GAMEFILE_H

#include <stddef.h>
#include <stdint.h>

#ifdef __cplusplus
extern "C" {
#endif

#define GAMEFILE_VERSION "1.0.0"

/* What a call returns. */
typedef enum {
    GAMEFILE_OK = 0,                /* done; for two files: they mean the same game */
    GAMEFILE_DIFFERENT = 1,         /* two files do not mean the same game */
    GAMEFILE_REFUSED = 2,           /* a file is refused; the fault says why, and where */
    GAMEFILE_MISUSE = 3,            /* a flag that the call does not take; NULL with a length above
                                       0; a length above PTRDIFF_MAX bytes; a NULL `hash`; a
                                       table of 4,294,967,296 players or more */
    GAMEFILE_NOMEM = 5,             /* out of memory */
    GAMEFILE_TOO_MANY_PROFILES = 6, /* a table would have more than 1,048,576 profiles */
    GAMEFILE_OVERFLOW = 7,          /* a payoff of a table cannot be worked out within 127 bits */
    GAMEFILE_TOO_SMALL = 8          /* the buffer is too small; nothing was written */
} gamefile_status;

typedef enum { GAMEFILE_TREE = 1, GAMEFILE_TABLE = 2 } gamefile_kind;

/* Flags. */
enum {
    GAMEFILE_NO_NAMES = 1u, /* title, comment, and the names of nodes, information sets and outcomes
                               count as empty */
    GAMEFILE_REDUCED = 2u   /* for a tree, the reduced strategic form */
};

/* What was expected, if the code is 3. */
enum {
    GAMEFILE_WHAT_FORMAT = 1,
    GAMEFILE_WHAT_VERSION = 2,
    GAMEFILE_WHAT_LETTER = 3,
    GAMEFILE_WHAT_TEXT = 4,
    GAMEFILE_WHAT_OPENING = 5,
    GAMEFILE_WHAT_CLOSING = 6,
    GAMEFILE_WHAT_NUMBER = 7,
    GAMEFILE_WHAT_INDEX = 8,
    GAMEFILE_WHAT_STRATEGIES = 9,
    GAMEFILE_WHAT_NODE = 10,
    GAMEFILE_WHAT_END = 11
};

/* Why a file is refused, and where: the number of the code (4 for E4), what was expected (0 unless
 * the code is 3), and the range of bytes, counted from 0; `end` is one past the last byte. A call
 * sets the fault if it returns GAMEFILE_REFUSED. It also sets it, with the code 19, if it returns
 * GAMEFILE_NOMEM because memory ran out while it read a file. gamefile_explain sets it whenever a
 * file is refused. */
typedef struct {
    uint32_t code;
    uint32_t expected;
    size_t start;
    size_t end;
} gamefile_fault;

/* What the numbers of a pair belong to. */
enum { GAMEFILE_SET = 1u, GAMEFILE_OUTCOME = 2u };

/* The numbers of an information set, or of an outcome, that correspond in two trees. */
typedef struct {
    uint32_t kind;   /* GAMEFILE_SET or GAMEFILE_OUTCOME */
    uint32_t player; /* the player of a set, 0 for chance; 0 for an outcome */
    uint32_t first;  /* the number in the first tree */
    uint32_t second; /* the number in the second tree */
} gamefile_pair;

/* In each call, `kind`, `needed`, `fault`, `profile` and `which` may be NULL. Outputs that a call
 * does not set are unchanged. */

/* The version of the library. GAMEFILE_VERSION is the version of this header. */
const char *gamefile_version(void);

/* Returns GAMEFILE_OK if the bytes are a valid game file; `kind` is then its kind. */
gamefile_status gamefile_check(const uint8_t *in, size_t n, gamefile_kind *kind, gamefile_fault *fault);

/* Explains in words why a file is refused, as the program does with --explain: the text has the line
 * and the column, the code and the place, what is wrong, the line of the file with marks under the
 * place, and often a hint. Each line ends with a line feed, and there are no other control
 * characters, and none that sets the direction of a text.
 *
 * The text begins with `name`, a string in UTF-8; NULL stands for "<input>". After GAMEFILE_REFUSED
 * it is in the buffer, and `needed` is its length; after GAMEFILE_TOO_SMALL `needed` is the length
 * too. A buffer of strlen(name) + 1024 bytes is long enough for it. If the bytes are a valid game
 * file, the call returns GAMEFILE_OK and writes nothing. */
gamefile_status gamefile_explain(const uint8_t *in, size_t n, const char *name, uint8_t *out, size_t cap,
                                 size_t *needed, gamefile_fault *fault);

/* Writes the canonical text of a file. Two files have equal texts exactly when they mean the same
 * game. Flags: 0 or GAMEFILE_NO_NAMES. After GAMEFILE_OK and GAMEFILE_TOO_SMALL, `needed` is the
 * length of the text. A text is seldom longer than its file: a buffer of n + n / 8 + 4096 bytes
 * nearly always holds it. To get the length alone, pass NULL with a `cap` of 0. */
gamefile_status gamefile_canonical(const uint8_t *in, size_t n, unsigned flags, uint8_t *out,
                                   size_t cap, size_t *needed, gamefile_fault *fault);

/* Writes the SHA-256 digest of the canonical text, as 64 hexadecimal digits and a zero byte. It is
 * the same in all versions 1.x. If `hash` is NULL, the call returns GAMEFILE_MISUSE. Flags: 0 or
 * GAMEFILE_NO_NAMES. */
gamefile_status gamefile_hash(const uint8_t *in, size_t n, unsigned flags, char hash[65],
                              gamefile_fault *fault);

/* Writes the strategic form of a tree, with exact expected payoffs; for a strategic file, its
 * canonical text. Flags: 0 or GAMEFILE_REDUCED. After GAMEFILE_OVERFLOW, `profile` is the first
 * profile that overflows, counted from 1. `needed` is as in gamefile_canonical, but a table may be far
 * longer than its tree: if the call returns GAMEFILE_TOO_SMALL, call again with `needed` bytes. */
gamefile_status gamefile_table(const uint8_t *in, size_t n, unsigned flags, uint8_t *out, size_t cap,
                               size_t *needed, gamefile_fault *fault, uint64_t *profile);

/* Returns GAMEFILE_OK if two files mean the same game, and otherwise GAMEFILE_DIFFERENT. If one is
 * refused, `which` is 0 for the first and 1 for the second. Flags: 0 or GAMEFILE_NO_NAMES. */
gamefile_status gamefile_same(const uint8_t *a, size_t an, const uint8_t *b, size_t bn, unsigned flags,
                              gamefile_fault *fault, int *which);

/* Writes which numbers of two files correspond, if these mean the same game: a pair for each
 * information set and each outcome of a tree, and none for a table. The sets of chance come first,
 * then those of each player in turn, and then the outcomes, all in order of first use. `cap` and
 * `needed` count pairs. If the files do not mean the same game, the call returns
 * GAMEFILE_DIFFERENT. `which` is as in gamefile_same. */
gamefile_status gamefile_renumbering(const uint8_t *a, size_t an, const uint8_t *b, size_t bn,
                                     gamefile_pair *out, size_t cap, size_t *needed,
                                     gamefile_fault *fault, int *which);

/* What a code means, in English; and a hint that is true wherever the code occurs, or NULL if there
 * is none, as for the code 3. gamefile_explain looks at the file too, so it has more hints, and
 * better ones. Do not free these texts. */
const char *gamefile_message(uint32_t code, uint32_t expected);
const char *gamefile_hint(uint32_t code, uint32_t expected);

#ifdef __cplusplus
}
#endif

#endif
