/* Yudronkha: the lint of Starlark tree files, for C and C++. docs/TREE.md says what a tree file is. Every call that takes one takes
 * both versions, 1 and 2 (of scripts that declare dialect 2); they have one layout, and differ in code 15 alone.
 *
 * Link with liblint_c.a, which `rt lib` in crates/lint_c writes to its folder out/: code for x86-64 Linux under the System V
 * calling convention. Of other libraries it needs only memcpy, memmove and memset.
 *
 * Every call is proved in its Rattle source, for every tree, every length and whatever the lent words hold: it ends, writes to
 * nothing but the rooms lent to it, and answers as documents 01 and 02 say. The proof covers neither the compiler's back end nor
 * this header; runs of examples/build test both.
 *
 * A call keeps nothing for the next and there are no globals, so any number of threads may call at once, each with rooms of its
 * own. A call takes no heap and makes no system call.
 */
#ifndef YUDRONKHA_H
#define YUDRONKHA_H

/* Before any other header, which may not be there for another target. */
#if !defined(__x86_64__) || !defined(__linux__) || !defined(__LP64__)
#error "yudronkha.h: liblint_c.a is code for x86-64 Linux with 64-bit pointers (LP64), and the compiler's target is another"
#endif

#include <stddef.h>
#include <stdint.h>

#if SIZE_MAX != 0xffffffffffffffff
#error "yudronkha.h: liblint_c.a is code for x86-64 Linux, where size_t has 64 bits, and here it has not"
#endif

#ifdef __cplusplus
extern "C" {
#endif

/* Version 3.1.0 of this header, as major * 10000 + minor * 100 + patch. Major goes up where the layout of a call, a record or a
 * report changes, or a number gets another meaning, so that a program has to be changed; minor where a call, a code, a refusal
 * or a version of tree files is added or a size below grows, so that it has to be compiled anew at most; patch with any other change.
 * From 3.0.1: tree files of version 2 are taken, too. No program has to be changed.
 * From 3.0.0: with strict keys whole floats of 2^53 and more are their integers, too. No program has to be changed.
 * From 2.0.0: a record has ten words, the first eight as they were. A program that steps through the answer room and sizes it by
 * YUDRONKHA_RECORD_WORDS is compiled anew; one that has an 8 there is changed (81,920 words were room for 10,240 records). No
 * call's parameters, no other number and no report changed. */
#define YUDRONKHA_VERSION 30100

/* Sizes, in elements of each room. */
#define YUDRONKHA_TREE_BYTES_MOST 149515 /* no valid tree is longer; a longer one gets its refusal like any other bytes */
#define YUDRONKHA_WORK_WORDS 32768       /* work room that a call needs */
#define YUDRONKHA_RECORD_WORDS 10        /* words of one record */
#define YUDRONKHA_RECORDS_MOST 10240     /* no valid tree has more records: with room for these, which is 102,400 words or 409,600
                                            bytes, 11 is never answered */
#define YUDRONKHA_CODES 17               /* codes are 1 to 17 */
#define YUDRONKHA_NAME_BYTES 26          /* the longest short name of a code */
#define YUDRONKHA_REPORT_WORDS 18        /* a whole report: word 0, then one word for each code */
#define YUDRONKHA_SARIF_REPORT_WORDS 19  /* a log's report: the same words, then the log's bytes */
#define YUDRONKHA_REPORT_BYTES 18        /* the word of a log's report that has them */
#define YUDRONKHA_NO_VALUE 65535         /* a record's value number where it has none */
#define YUDRONKHA_NO_NODE 65535          /* a record's second node where it has none */

/* A log of so many records has at most so many bytes. */
#define YUDRONKHA_LOG_BYTES(records) (1617 + 2222 * (size_t)(records))

/* Stack to keep free for one call, in bytes: measured on trees of depth 48, not proved (docs/SPEED.md). yudronkha_version,
 * yudronkha_severity and yudronkha_short_name take under a kilobyte. */
#define YUDRONKHA_STACK_BYTES 1048576       /* yudronkha_lint, either keys; the most seen is 957,792 */
#define YUDRONKHA_SARIF_STACK_BYTES 1572864 /* yudronkha_sarif, which makes its list there, too; the most seen is 1,371,728 */

/* What yudronkha_lint and yudronkha_sarif return: 0, or the number of the one refusal. Where several hold, the lowest number is
 * given, at its lowest place. The place stands in report[0]. */
enum yudronkha_number {
    YUDRONKHA_LISTED = 0,               /* the list is written; report[0] is how many records it has, which may be 0 */
    YUDRONKHA_REFUSED_MARK = 1,         /* under 11 bytes, or the mark is not SLT; place 0 */
    YUDRONKHA_REFUSED_VERSION = 2,      /* the version of the tree file is neither 1 nor 2; place 0 */
    YUDRONKHA_REFUSED_COUNTS = 3,       /* nodes 0 or over 1,024; values over 512; globals over 512 and not 65535; place 0 */
    YUDRONKHA_REFUSED_SECTIONS = 4,     /* the sections, with lengths as written, don't fill the input exactly; place 0 */
    YUDRONKHA_REFUSED_VALUE = 5,        /* form or order of a value is wrong; place: the value */
    YUDRONKHA_REFUSED_NODE = 6,         /* unknown kind; begin above end; last field not 0; size 0 or beyond the parent (node 0: the file); value
                                           number beyond the table; value missing, forbidden or of a wrong kind; place: the node */
    YUDRONKHA_REFUSED_CHILDREN = 7,     /* the children of a node, or the root, are not as 01's list has them; place: the parent */
    YUDRONKHA_REFUSED_DEPTH = 8,        /* depth over 48, the root being 1; place: the node */
    YUDRONKHA_REFUSED_GLOBAL = 9,       /* a global is not a name, or not above the one before; place: its position */
    YUDRONKHA_REFUSED_WORK_ROOM = 10,   /* work_len under YUDRONKHA_WORK_WORDS; place 0 */
    YUDRONKHA_REFUSED_ANSWER_ROOM = 11, /* answer_len under YUDRONKHA_RECORD_WORDS a record; place: the records needed */
    YUDRONKHA_REFUSED_OUTPUT_ROOM = 12  /* output_len under the log's bytes; place: the bytes needed. yudronkha_sarif alone */
};

/* The code of a record, its word 0; yudronkha_severity and yudronkha_short_name say more of one.
 * Node and first span are those of what the record is at. The value, and the second and third span, are said where a record has
 * them; the second node is that of the second span. */
enum yudronkha_code {
    /* names; at a node that holds the name (an identifier, a target, a parameter or a loaded name); value: the name. Where several
     * nodes share span and name, the node is the one of them that the names walk uses or sets first (docs/TREE.md, "What comes back") */
    YUDRONKHA_UNUSED_LOAD = 1,
    YUDRONKHA_UNUSED_ASSIGN = 2,
    YUDRONKHA_UNUSED_ARGUMENT = 3,
    YUDRONKHA_USING_UNASSIGNED = 4,
    YUDRONKHA_USING_UNDEFINED = 5,
    YUDRONKHA_USING_MAYBE_UNDEFINED = 6,
    /* flow */
    YUDRONKHA_MISSING_RETURN_EXPRESSION = 7, /* at the return; value: the def's name; second: the def; third: why it wants a value */
    YUDRONKHA_MISSING_RETURN = 8,            /* at the def; value: its name; second: why it wants a value, its type or a return */
    YUDRONKHA_UNREACHABLE = 9,               /* at the statement */
    YUDRONKHA_REDUNDANT_RETURN = 10,         /* at the return */
    YUDRONKHA_REDUNDANT_CONTINUE = 11,       /* at the continue */
    YUDRONKHA_MISPLACED_LOAD = 12,           /* at the load */
    YUDRONKHA_NO_EFFECT = 13,                /* at the expression */
    /* incompatible */
    YUDRONKHA_INCOMPATIBLE_TYPE_CHECK = 14,    /* at the comparison; value: the type's name */
    YUDRONKHA_DUPLICATE_TOP_LEVEL_ASSIGN = 15, /* at the later name; value: the name; second: the name as first defined. x = x, where
                                                  a load defined x first, is free: once in version 1, each time in version 2 */
    /* dubious */
    YUDRONKHA_DUPLICATE_KEY = 16,          /* at the previous equal key; value and second: the later key; no third, but a reason */
    YUDRONKHA_IDENTIFIER_AS_STATEMENT = 17 /* at the identifier; value: the name */
};

/* The words of a record, by position. A second or third span that a record doesn't have is 0 0, but for code 16: its records have
 * a reason and 0 in place of a third span, which are no place of the script. The last two words are numbers of nodes in the tree
 * file, from 0 on, so that an editor goes to a node and needs no search for its span, which several nodes may have. Every record has
 * a node; codes 7, 8, 15 and 16 have a second one. */
enum yudronkha_word {
    YUDRONKHA_CODE = 0,
    YUDRONKHA_BEGIN = 1,
    YUDRONKHA_END = 2,
    YUDRONKHA_VALUE = 3, /* the value number in the tree file, or YUDRONKHA_NO_VALUE */
    YUDRONKHA_SECOND_BEGIN = 4,
    YUDRONKHA_SECOND_END = 5,
    YUDRONKHA_THIRD_BEGIN = 6,
    YUDRONKHA_THIRD_END = 7,
    YUDRONKHA_NODE = 8,        /* the node warned */
    YUDRONKHA_SECOND_NODE = 9, /* the node that the second span came from, or YUDRONKHA_NO_NODE */
    YUDRONKHA_REASON = 6       /* code 16 alone */
};

/* Why the two keys of a record of code 16 are equal. No record has another reason. */
enum yudronkha_reason {
    YUDRONKHA_SAME_FORM = 1,  /* the same key again: one identifier, or literals of one kind and one value */
    YUDRONKHA_SAME_NUMBER = 2 /* the same number in another form: an integer and a float */
};

/* The severity of a code. */
enum yudronkha_severity_number {
    YUDRONKHA_DISABLED = 0, /* codes 1, 2, 3, 5, 10 and 11: listed like the others, and no reason to turn a script down */
    YUDRONKHA_WARNING = 1
};

/* The library's own YUDRONKHA_VERSION: a program compares the two before its first other call, since nothing else sees that
 * header and library are of different versions. */
size_t yudronkha_version(void);

/* YUDRONKHA_DISABLED or YUDRONKHA_WARNING, for any number; one that is no code is a warning's. */
size_t yudronkha_severity(size_t code);

/* The short name of a code, as missing-return: writes as many of its bytes as fit into name, and returns how many bytes it has,
 * at most YUDRONKHA_NAME_BYTES; 0 for a number that is no code. Bytes past the name are as they were: no zero byte is put after
 * it. name is not null, also where name_len is 0. */
size_t yudronkha_short_name(size_t code, uint8_t *name, size_t name_len);

/* Lints a tree file: names, flow, incompatible, dubious, each pass's records after those of the one before.
 *
 * tree, tree_len      the file's bytes, any bytes and any number of them. Only read.
 * work, work_len      work room, in 16-bit words; what it holds on entry doesn't matter. After 0, 11 and 12 its first
 *                     YUDRONKHA_WORK_WORDS words are zero and the rest are as they were; after any other number all are.
 * answer, answer_len  room for the records, in 32-bit words. After 0 it begins with report[0] records of
 *                     YUDRONKHA_RECORD_WORDS words, and the words past them are as they were. A refusal writes none.
 * report, report_len  what else is answered. report[0]: after 0 the records written, else the refusal's place, which for 11 is the
 *                     records needed, so that a second call with that much room succeeds. report[c], for a code c of 1 to
 *                     YUDRONKHA_CODES: how many of the records have code c; after a refusal 0. Where report_len is under
 *                     YUDRONKHA_REPORT_WORDS the words that fit are written, and words past the report are as they were.
 *
 * Returns YUDRONKHA_LISTED or a refusal's number, 1 to 11; nothing else. Lengths count elements, not bytes, and no length is an
 * error of the caller's: a short work room is refused by 10, a short answer room by 11.
 *
 * What the caller owes, and no call can test: each pointer is not null, also where its length is 0, is aligned for its type
 * (1, 2, 4 and 8 bytes), and has that many elements behind it, in all at most PTRDIFF_MAX bytes; the rooms overlap neither
 * each other nor the tree, and no other thread writes to any of them during the call; YUDRONKHA_STACK_BYTES of stack are free.
 *
 * yudronkha_lint has ordinary keys, the rule of the Rust; yudronkha_lint_strict strict keys, in which every finite whole float is
 * the same key as its integer, however large, and an infinity only as itself. Only in records of code 16 can their lists differ. */
size_t yudronkha_lint(const uint8_t *tree, size_t tree_len, uint16_t *work, size_t work_len, uint32_t *answer,
                      size_t answer_len, size_t *report, size_t report_len);

size_t yudronkha_lint_strict(const uint8_t *tree, size_t tree_len, uint16_t *work, size_t work_len, uint32_t *answer,
                             size_t answer_len, size_t *report, size_t report_len);

/* The same list, and with it the list as one SARIF 2.1.0 log, byte for byte the log that the desk's program writes of the tree.
 *
 * tree, work, answer  as above.
 * output, output_len  room for the log. After 0 it begins with report[YUDRONKHA_REPORT_BYTES] bytes of UTF-8, the last a line's end
 *                     and no zero byte after it; the bytes past them are as they were. A refusal writes none. The list is made on
 *                     the call's own stack (410 KB) and copied where all rooms suffice: 12 leaves the answer room as it was, too.
 * report, report_len  as above, and in word YUDRONKHA_REPORT_BYTES the bytes of the log; after a refusal 0. A whole report has
 *                     YUDRONKHA_SARIF_REPORT_WORDS words; with fewer the words that fit are written.
 *
 * Returns YUDRONKHA_LISTED or a refusal's number, 1 to 12; nothing else. For 11 report[0] is the records needed and for 12 the bytes
 * needed. With YUDRONKHA_WORK_WORDS of work room, room for n records and YUDRONKHA_LOG_BYTES(n) bytes a valid tree of at most n
 * records, the number that yudronkha_lint tells, is never refused: for YUDRONKHA_RECORDS_MOST records that is 22,754,897 bytes.
 *
 * What the caller owes is the same, with YUDRONKHA_SARIF_STACK_BYTES of stack; output may have any alignment. */
size_t yudronkha_sarif(const uint8_t *tree, size_t tree_len, uint16_t *work, size_t work_len, uint32_t *answer,
                       size_t answer_len, uint8_t *output, size_t output_len, size_t *report, size_t report_len);

size_t yudronkha_sarif_strict(const uint8_t *tree, size_t tree_len, uint16_t *work, size_t work_len, uint32_t *answer,
                              size_t answer_len, uint8_t *output, size_t output_len, size_t *report, size_t report_len);

#ifdef __cplusplus
}
#endif

#endif
