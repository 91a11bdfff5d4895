/* lengths: tries what include/yudronkha.h says of lengths and of a tree's version, on one tree each, and of a few codes; words behind
 * each room must stay.
 * Prints a line for each call that answers otherwise. Exit status: 0 none does, 1 one does, 2 header and library differ. */
#include <stdio.h>
#include <string.h>

#include "yudronkha.h"

enum { PATTERN = 0x5a, BEHIND = 4, ANSWER = 3 * YUDRONKHA_RECORD_WORDS, OUTPUT = YUDRONKHA_LOG_BYTES(2) };

/* One statement, a dict with the keys 9007199254740992 and 9007199254740992.0: a record of code 13, with strict keys one of code 16 too. */
static const uint8_t tree[] = {
    'S', 'L', 'T', 1, 0, 6, 0, 2, 0, 255, 255,
    5, 0, 6, 0, 0, 0, 0, 0, 9, 0, 0, 0, 255, 255, 0, 0,
    29, 4, 5, 0, 0, 0, 0, 0, 9, 0, 0, 0, 255, 255, 0, 0,
    21, 8, 1, 0, 1, 0, 0, 0, 2, 0, 0, 0, 0, 0, 0, 0,
    21, 4, 1, 0, 3, 0, 0, 0, 4, 0, 0, 0, 0, 0, 0, 0,
    21, 8, 1, 0, 5, 0, 0, 0, 6, 0, 0, 0, 1, 0, 0, 0,
    21, 4, 1, 0, 7, 0, 0, 0, 8, 0, 0, 0, 0, 0, 0, 0,
    3, 7, 0, 0x20, 0x00, 0x00, 0x00, 0x00, 0x00, 0x00,
    4, 8, 0, 0x00, 0x00, 0x00, 0x00, 0x00, 0x00, 0x40, 0x43,
};

/* The log of the tree with ordinary and with strict keys, as the first call with ample rooms writes it, and its bytes. */
static uint8_t logs[2][OUTPUT];
static size_t log_bytes[2];

/* The lengths of a call, and what it must answer. The output room of a log is so many bytes more than the log, or NONE. */
struct call {
    const char *name;
    int log, strict;
    size_t tree_len, work_len, answer_len;
    int more;
    size_t report_len;
    size_t number, place;
};

#define TREE sizeof tree
#define WORK YUDRONKHA_WORK_WORDS
#define RECORD YUDRONKHA_RECORD_WORDS
#define REPORT YUDRONKHA_REPORT_WORDS
#define LOG_REPORT YUDRONKHA_SARIF_REPORT_WORDS
#define NONE (-OUTPUT)
#define THE_LOGS SIZE_MAX /* the place of 12 */
static const struct call calls[] = {
    {"all rooms ample", 0, 0, TREE, WORK + 1, ANSWER, 0, REPORT + 1, 0, 1},
    {"strict keys", 0, 1, TREE, WORK + 1, ANSWER, 0, REPORT + 1, 0, 2},
    {"answer room exact", 0, 0, TREE, WORK, RECORD, 0, REPORT, 0, 1},
    {"answer room exact, strict keys", 0, 1, TREE, WORK, 2 * RECORD, 0, REPORT, 0, 2},
    {"no report", 0, 0, TREE, WORK, RECORD, 0, 0, 0, 1},
    {"a report of one word", 0, 0, TREE, WORK, RECORD, 0, 1, 0, 1},
    {"a report short of a word", 0, 0, TREE, WORK, RECORD, 0, REPORT - 1, 0, 1},
    {"no work room", 0, 0, TREE, 0, ANSWER, 0, REPORT, 10, 0},
    {"work room short of a word", 0, 0, TREE, WORK - 1, ANSWER, 0, REPORT, 10, 0},
    {"no answer room", 0, 0, TREE, WORK, 0, 0, REPORT, 11, 1},
    {"answer room short of a word", 0, 0, TREE, WORK + 1, RECORD - 1, 0, REPORT, 11, 1},
    {"answer room short of a record, strict keys", 0, 1, TREE, WORK, 2 * RECORD - 1, 0, REPORT, 11, 2},
    {"no room at all", 0, 0, TREE, 0, 0, 0, 0, 10, 0},
    {"an empty tree", 0, 0, 0, WORK, ANSWER, 0, REPORT, 1, 0},
    {"a tree short of a byte", 0, 0, TREE - 1, WORK, ANSWER, 0, REPORT, 4, 0},
    {"log, all rooms ample", 1, 0, TREE, WORK + 1, ANSWER, 9, LOG_REPORT + 1, 0, 1},
    {"log, strict keys", 1, 1, TREE, WORK + 1, ANSWER, 9, LOG_REPORT + 1, 0, 2},
    {"log, rooms exact", 1, 0, TREE, WORK, RECORD, 0, LOG_REPORT, 0, 1},
    {"log, rooms exact, strict keys", 1, 1, TREE, WORK, 2 * RECORD, 0, LOG_REPORT, 0, 2},
    {"log, a report short of a word", 1, 0, TREE, WORK, RECORD, 0, LOG_REPORT - 1, 0, 1},
    {"log, no report", 1, 0, TREE, WORK, RECORD, 0, 0, 0, 1},
    {"log, output room short of a byte", 1, 0, TREE, WORK + 1, ANSWER, -1, LOG_REPORT, 12, THE_LOGS},
    {"log, output room short of a byte, strict keys", 1, 1, TREE, WORK, ANSWER, -1, LOG_REPORT, 12, THE_LOGS},
    {"log, no output room", 1, 0, TREE, WORK, ANSWER, NONE, LOG_REPORT, 12, THE_LOGS},
    {"log, answer room short of a word too", 1, 0, TREE, WORK, RECORD - 1, -1, LOG_REPORT, 11, 1},
    {"log, work room short of a word too", 1, 0, TREE, WORK - 1, RECORD - 1, -1, LOG_REPORT, 10, 0},
    {"log, an empty tree", 1, 0, 0, WORK, ANSWER, 0, LOG_REPORT, 1, 0},
};

static uint16_t work[WORK + 1 + BEHIND];
static uint32_t answer[ANSWER + BEHIND];
static uint8_t output[OUTPUT + BEHIND];
static size_t report[LOG_REPORT + 1 + BEHIND];

#define COUNT(array) (sizeof array / sizeof *array)

static void fill(void)
{
    for (size_t k = 0; k < COUNT(work); k++)
        work[k] = PATTERN;
    for (size_t k = 0; k < COUNT(answer); k++)
        answer[k] = PATTERN;
    for (size_t k = 0; k < COUNT(report); k++)
        report[k] = PATTERN;
    memset(output, PATTERN, sizeof output);
}

static size_t report_word(const struct call *c, size_t k)
{
    if (k >= c->report_len || k >= (c->log ? LOG_REPORT : REPORT))
        return PATTERN;
    if (k == 0)
        return c->place == THE_LOGS ? log_bytes[c->strict] : c->place;
    if (c->number != YUDRONKHA_LISTED)
        return 0;
    if (k == YUDRONKHA_REPORT_BYTES)
        return log_bytes[c->strict];
    return k == YUDRONKHA_NO_EFFECT || (k == YUDRONKHA_DUPLICATE_KEY && c->strict);
}

/* The first record is at the dict. */
static int dict_given(void)
{
    return answer[YUDRONKHA_CODE] == YUDRONKHA_NO_EFFECT && answer[YUDRONKHA_NODE] == 1 &&
           answer[YUDRONKHA_SECOND_NODE] == YUDRONKHA_NO_NODE;
}

/* The record of strict keys comes second, at the first key. */
static int keys_given(void)
{
    const uint32_t *record = answer + RECORD;
    return record[YUDRONKHA_CODE] == YUDRONKHA_DUPLICATE_KEY && record[YUDRONKHA_REASON] == YUDRONKHA_SAME_NUMBER &&
           record[YUDRONKHA_THIRD_END] == 0 && record[YUDRONKHA_NODE] == 2 && record[YUDRONKHA_SECOND_NODE] == 4;
}

/* Every word of work room and report, every byte of the output room, the answer room past the records, codes, nodes and reason of the
 * records, and the words behind them. */
static int as_said(const struct call *c)
{
    int listed = c->number == YUDRONKHA_LISTED;
    int cleared = listed || c->number >= YUDRONKHA_REFUSED_ANSWER_ROOM;
    size_t records = listed ? c->place * RECORD : 0;
    size_t bytes = listed && c->log ? log_bytes[c->strict] : 0;
    for (size_t k = 0; k < COUNT(work); k++)
        if (work[k] != (cleared && k < WORK ? 0 : PATTERN))
            return 0;
    for (size_t k = records; k < COUNT(answer); k++)
        if (answer[k] != PATTERN)
            return 0;
    for (size_t k = 0; k < COUNT(report); k++)
        if (report[k] != report_word(c, k))
            return 0;
    for (size_t k = bytes; k < COUNT(output); k++)
        if (output[k] != PATTERN)
            return 0;
    if (listed && !(dict_given() && (!c->strict || keys_given())))
        return 0;
    return memcmp(output, logs[c->strict], bytes) == 0;
}

static size_t called(const struct call *c)
{
    if (!c->log)
        return (c->strict ? yudronkha_lint_strict : yudronkha_lint)(
            tree, c->tree_len, work, c->work_len, answer, c->answer_len, report, c->report_len);
    return (c->strict ? yudronkha_sarif_strict : yudronkha_sarif)(
        tree, c->tree_len, work, c->work_len, answer, c->answer_len, output,
        c->more == NONE ? 0 : log_bytes[c->strict] + (size_t)c->more, report, c->report_len);
}

/* The whole log: one line's end at its end, and of a room of that size nothing left. */
static int log_kept(int strict)
{
    size_t number = (strict ? yudronkha_sarif_strict : yudronkha_sarif)(
        tree, TREE, work, COUNT(work), answer, COUNT(answer), logs[strict], OUTPUT, report, COUNT(report));
    log_bytes[strict] = report[YUDRONKHA_REPORT_BYTES];
    return number == YUDRONKHA_LISTED && log_bytes[strict] < OUTPUT && logs[strict][0] == '{' && logs[strict][log_bytes[strict] - 1] == '\n';
}

/* load x, x = x, x = x, its version at byte 3: in version 1 the last line is a record of code 15, in version 2 nothing is. */
static const uint8_t loaded[] = {
    'S', 'L', 'T', 0, 0, 9, 0, 1, 0, 255, 255,
    8, 0, 9, 0, 0, 0, 0, 0, 27, 0, 0, 0, 255, 255, 0, 0,
    13, 0, 2, 0, 0, 0, 0, 0, 14, 0, 0, 0, 255, 255, 0, 0,
    47, 0, 1, 0, 10, 0, 0, 0, 13, 0, 0, 0, 0, 0, 0, 0,
    6, 0, 3, 0, 15, 0, 0, 0, 20, 0, 0, 0, 255, 255, 0, 0,
    40, 5, 1, 0, 15, 0, 0, 0, 16, 0, 0, 0, 0, 0, 0, 0,
    20, 4, 1, 0, 19, 0, 0, 0, 20, 0, 0, 0, 0, 0, 0, 0,
    6, 0, 3, 0, 21, 0, 0, 0, 26, 0, 0, 0, 255, 255, 0, 0,
    40, 5, 1, 0, 21, 0, 0, 0, 22, 0, 0, 0, 0, 0, 0, 0,
    20, 4, 1, 0, 25, 0, 0, 0, 26, 0, 0, 0, 0, 0, 0, 0,
    0, 1, 0, 'x',
};

/* A version, and what a call answers. */
static const struct version {
    uint16_t version;
    size_t number, records;
} versions[] = {
    {0, YUDRONKHA_REFUSED_VERSION, 0},
    {1, YUDRONKHA_LISTED, 1},
    {2, YUDRONKHA_LISTED, 0},
    {3, YUDRONKHA_REFUSED_VERSION, 0},
    {258, YUDRONKHA_REFUSED_VERSION, 0},
    {65535, YUDRONKHA_REFUSED_VERSION, 0},
};

static int version_taken(const struct version *v, int strict)
{
    uint8_t bytes[sizeof loaded];
    memcpy(bytes, loaded, sizeof loaded);
    bytes[3] = v->version & 255;
    bytes[4] = v->version >> 8;
    fill();
    size_t number = (strict ? yudronkha_lint_strict : yudronkha_lint)(bytes, sizeof bytes, work, WORK, answer, ANSWER, report, REPORT);
    if (number != v->number || report[0] != v->records || report[YUDRONKHA_DUPLICATE_TOP_LEVEL_ASSIGN] != v->records)
        return 0;
    return v->records == 0 ? answer[0] == PATTERN
                           : answer[YUDRONKHA_CODE] == YUDRONKHA_DUPLICATE_TOP_LEVEL_ASSIGN && answer[YUDRONKHA_NODE] == 7 &&
                                 answer[YUDRONKHA_SECOND_NODE] == 2;
}

/* A code, and its name and severity; what is no code has no name. */
static const struct code {
    size_t code;
    const char *name;
    size_t severity;
} codes[] = {
    {0, "", YUDRONKHA_WARNING},
    {YUDRONKHA_UNUSED_LOAD, "unused-load", YUDRONKHA_DISABLED},
    {YUDRONKHA_MISSING_RETURN, "missing-return", YUDRONKHA_WARNING},
    {YUDRONKHA_REDUNDANT_CONTINUE, "redundant-continue", YUDRONKHA_DISABLED},
    {YUDRONKHA_DUPLICATE_TOP_LEVEL_ASSIGN, "duplicate-top-level-assign", YUDRONKHA_WARNING},
    {YUDRONKHA_IDENTIFIER_AS_STATEMENT, "ident-as-statement", YUDRONKHA_WARNING},
    {YUDRONKHA_CODES + 1, "", YUDRONKHA_WARNING},
    {((size_t)1 << 32) + YUDRONKHA_UNUSED_LOAD, "", YUDRONKHA_WARNING},
    {SIZE_MAX, "", YUDRONKHA_WARNING},
};

/* In every room up to one that is longer than the longest name. */
static int named(const struct code *c)
{
    size_t whole = strlen(c->name);
    for (size_t room = 0; room <= YUDRONKHA_NAME_BYTES + 1; room++) {
        fill();
        size_t written = room < whole ? room : whole;
        if (yudronkha_short_name(c->code, output, room) != whole || memcmp(output, c->name, written) != 0 || output[written] != PATTERN)
            return 0;
    }
    return yudronkha_severity(c->code) == c->severity;
}

int main(void)
{
    int status = 0;
    if (yudronkha_version() != YUDRONKHA_VERSION) {
        printf("yudronkha.h is of version %d and the library of %zu\n", YUDRONKHA_VERSION, yudronkha_version());
        return 2;
    }
    if (!log_kept(0) || !log_kept(1)) {
        puts("the log in ample rooms is not as the header says");
        return 1;
    }
    for (size_t i = 0; i < COUNT(calls); i++) {
        fill();
        size_t number = called(&calls[i]);
        if (number != calls[i].number || !as_said(&calls[i])) {
            printf("%s: number %zu, or a word, is not as the header says\n", calls[i].name, number);
            status = 1;
        }
    }
    for (size_t i = 0; i < COUNT(versions); i++)
        if (!version_taken(&versions[i], 0) || !version_taken(&versions[i], 1)) {
            printf("a tree of version %u: not as the header says\n", versions[i].version);
            status = 1;
        }
    for (size_t i = 0; i < COUNT(codes); i++)
        if (!named(&codes[i])) {
            printf("code %zu: severity or name is not as the header says\n", codes[i].code);
            status = 1;
        }
    return status;
}
