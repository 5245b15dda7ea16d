/* The layer between gamefile.h and the proved calls of crates/gamefile_c.
 *
 * A proved call takes no null pointer and returns no pointer. So this file gives it a place for each
 * answer that its caller does not need, and an empty byte string for NULL; and it holds the texts. */
#include "gamefile.h"

#include <string.h>

/* The proved calls. */
uint32_t gamefile_c_check(const uint8_t *in, size_t n, uint32_t *kind, gamefile_fault *fault);
uint32_t gamefile_c_explain(const uint8_t *in, size_t n, const uint8_t *name, size_t name_length,
                            uint8_t *out, size_t cap, size_t *needed, gamefile_fault *fault);
uint32_t gamefile_c_canonical(const uint8_t *in, size_t n, uint32_t flags, uint8_t *out, size_t cap,
                              size_t *needed, gamefile_fault *fault);
uint32_t gamefile_c_hash(const uint8_t *in, size_t n, uint32_t flags, uint8_t *out, size_t cap,
                         size_t *needed, gamefile_fault *fault);
uint32_t gamefile_c_table(const uint8_t *in, size_t n, uint32_t flags, uint8_t *out, size_t cap,
                          size_t *needed, gamefile_fault *fault, uint64_t *profile);
uint32_t gamefile_c_same(const uint8_t *a, size_t an, const uint8_t *b, size_t bn, uint32_t flags,
                         gamefile_fault *fault, uint32_t *which);
uint32_t gamefile_c_renumbering(const uint8_t *a, size_t an, const uint8_t *b, size_t bn,
                                gamefile_pair *out, size_t cap, size_t *needed, gamefile_fault *fault,
                                uint32_t *which);

/* No object is longer than this. */
static int is_bytes(const void *at, size_t n)
{
    return n <= PTRDIFF_MAX && (at != NULL || n == 0);
}

static const uint8_t *bytes_at(const uint8_t *at)
{
    static const uint8_t empty = 0;
    return at != NULL ? at : &empty;
}

const char *gamefile_version(void)
{
    return GAMEFILE_VERSION;
}

gamefile_status gamefile_check(const uint8_t *in, size_t n, gamefile_kind *kind, gamefile_fault *fault)
{
    gamefile_fault unasked_fault;
    uint32_t number = 0;
    gamefile_status status;
    if (!is_bytes(in, n))
        return GAMEFILE_MISUSE;
    status = (gamefile_status)gamefile_c_check(bytes_at(in), n, &number,
                                               fault != NULL ? fault : &unasked_fault);
    if (status == GAMEFILE_OK && kind != NULL)
        *kind = (gamefile_kind)number;
    return status;
}

gamefile_status gamefile_explain(const uint8_t *in, size_t n, const char *name, uint8_t *out, size_t cap,
                                 size_t *needed, gamefile_fault *fault)
{
    gamefile_fault unasked_fault;
    size_t unasked_needed;
    uint8_t nowhere;
    if (!is_bytes(in, n) || !is_bytes(out, cap))
        return GAMEFILE_MISUSE;
    if (name == NULL)
        name = "<input>";
    return (gamefile_status)gamefile_c_explain(
        bytes_at(in), n, (const uint8_t *)name, strlen(name), out != NULL ? out : &nowhere, cap,
        needed != NULL ? needed : &unasked_needed, fault != NULL ? fault : &unasked_fault);
}

gamefile_status gamefile_canonical(const uint8_t *in, size_t n, unsigned flags, uint8_t *out,
                                   size_t cap, size_t *needed, gamefile_fault *fault)
{
    gamefile_fault unasked_fault;
    size_t unasked_needed;
    uint8_t nowhere;
    if (!is_bytes(in, n) || !is_bytes(out, cap))
        return GAMEFILE_MISUSE;
    return (gamefile_status)gamefile_c_canonical(
        bytes_at(in), n, flags, out != NULL ? out : &nowhere, cap,
        needed != NULL ? needed : &unasked_needed, fault != NULL ? fault : &unasked_fault);
}

gamefile_status gamefile_hash(const uint8_t *in, size_t n, unsigned flags, char hash[65],
                              gamefile_fault *fault)
{
    gamefile_fault unasked_fault;
    uint8_t digits[64];
    size_t needed;
    gamefile_status status;
    if (!is_bytes(in, n) || hash == NULL)
        return GAMEFILE_MISUSE;
    status = (gamefile_status)gamefile_c_hash(bytes_at(in), n, flags, digits, sizeof digits, &needed,
                                              fault != NULL ? fault : &unasked_fault);
    if (status == GAMEFILE_OK) {
        memcpy(hash, digits, sizeof digits);
        hash[sizeof digits] = '\0';
    }
    return status;
}

gamefile_status gamefile_table(const uint8_t *in, size_t n, unsigned flags, uint8_t *out, size_t cap,
                               size_t *needed, gamefile_fault *fault, uint64_t *profile)
{
    gamefile_fault unasked_fault;
    size_t unasked_needed;
    uint64_t unasked_profile;
    uint8_t nowhere;
    if (!is_bytes(in, n) || !is_bytes(out, cap))
        return GAMEFILE_MISUSE;
    return (gamefile_status)gamefile_c_table(
        bytes_at(in), n, flags, out != NULL ? out : &nowhere, cap,
        needed != NULL ? needed : &unasked_needed, fault != NULL ? fault : &unasked_fault,
        profile != NULL ? profile : &unasked_profile);
}

gamefile_status gamefile_same(const uint8_t *a, size_t an, const uint8_t *b, size_t bn, unsigned flags,
                              gamefile_fault *fault, int *which)
{
    gamefile_fault unasked_fault;
    uint32_t number = 0;
    gamefile_status status;
    if (!is_bytes(a, an) || !is_bytes(b, bn))
        return GAMEFILE_MISUSE;
    status = (gamefile_status)gamefile_c_same(bytes_at(a), an, bytes_at(b), bn, flags,
                                              fault != NULL ? fault : &unasked_fault, &number);
    if (status == GAMEFILE_REFUSED && which != NULL)
        *which = (int)number;
    return status;
}

gamefile_status gamefile_renumbering(const uint8_t *a, size_t an, const uint8_t *b, size_t bn,
                                     gamefile_pair *out, size_t cap, size_t *needed,
                                     gamefile_fault *fault, int *which)
{
    gamefile_fault unasked_fault;
    size_t unasked_needed;
    gamefile_pair nowhere;
    uint32_t number = 0;
    gamefile_status status;
    if (!is_bytes(a, an) || !is_bytes(b, bn) || cap > PTRDIFF_MAX / sizeof *out || (out == NULL && cap > 0))
        return GAMEFILE_MISUSE;
    status = (gamefile_status)gamefile_c_renumbering(
        bytes_at(a), an, bytes_at(b), bn, out != NULL ? out : &nowhere, cap,
        needed != NULL ? needed : &unasked_needed, fault != NULL ? fault : &unasked_fault, &number);
    if (status == GAMEFILE_REFUSED && which != NULL)
        *which = (int)number;
    return status;
}

static const char *const messages[] = {
    [1] = "the file is larger than 16,777,216 bytes, the largest size that the program reads",
    [2] = "this quotation mark is never closed",
    [3] = "something else is expected here",
    [4] = "this is not a number",
    [5] = "the denominator is zero",
    [6] = "this number is too large or has too many digits",
    [7] = "this is not a valid number here: expected a whole number from 1 to 4,294,967,295 (from 0 "
          "for an outcome)",
    [8] = "there is no such player",
    [9] = "this information set or outcome is used for the first time, so its description must follow "
          "its number",
    [10] = "this differs from the description given when the number was first used",
    [11] = "a probability cannot be negative",
    [12] = "the probabilities add up to more than 1",
    [13] = "the probabilities add up to less than 1",
    [14] = "the sum of these probabilities cannot be worked out within 127 bits",
    [15] = "this list is empty: a player needs at least one strategy, an information set at least one "
           "action",
    [16] = "there is no such outcome",
    [18] = "the table would have more than 1,048,576 strategy profiles",
    [19] = "out of memory",
};

static const char *const expectations[] = {
    [GAMEFILE_WHAT_FORMAT] = "expected NFG or EFG at the start of the file",
    [GAMEFILE_WHAT_VERSION] = "expected version 1 (after NFG) or version 2 (after EFG)",
    [GAMEFILE_WHAT_LETTER] = "expected R or D",
    [GAMEFILE_WHAT_TEXT] = "expected a text in double quotes",
    [GAMEFILE_WHAT_OPENING] = "expected {",
    [GAMEFILE_WHAT_CLOSING] = "expected }",
    [GAMEFILE_WHAT_NUMBER] = "expected a number",
    [GAMEFILE_WHAT_INDEX] = "expected a whole number",
    [GAMEFILE_WHAT_STRATEGIES] =
        "expected the number of strategies of each player, or lists of their labels",
    [GAMEFILE_WHAT_NODE] = "expected a node: c, p or t",
    [GAMEFILE_WHAT_END] = "expected the end of the file",
};

static const char *const hints[] = {
    [2] = "a quotation mark inside a label is written \\\" ; a label cannot end in a backslash",
    [4] = "write 3, -0.5, 1e-3 or 1/3",
    [6] = "numerators and denominators have at most 127 bits; at most 38 digits after the point",
    [10] = "repeat it, leave it out, or give what is different a new number",
    [12] = "probabilities are exact: write 1/6 rather than 0.166667, and 1/2 rather than 50",
    [13] = "probabilities are exact: write 1/3 rather than 0.333",
};

/* The text of this number, or NULL. */
static const char *text_at(const char *const *texts, size_t count, uint32_t number)
{
    return number < count ? texts[number] : NULL;
}

const char *gamefile_message(uint32_t code, uint32_t expected)
{
    const char *text = NULL;
    if (code == 3)
        text = text_at(expectations, sizeof expectations / sizeof *expectations, expected);
    if (text == NULL)
        text = text_at(messages, sizeof messages / sizeof *messages, code);
    return text != NULL ? text : "no such code";
}

const char *gamefile_hint(uint32_t code, uint32_t expected)
{
    (void)expected; /* Where the same is expected, files still need different hints. */
    return text_at(hints, sizeof hints / sizeof *hints, code);
}
