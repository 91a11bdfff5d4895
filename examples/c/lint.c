/* lint [--sarif] [FILE]: lints a tree file, or standard input, and prints what the desk's program prints of it: ten numbers for each
 * record, then the total; with --sarif the list as one SARIF log; else the refusal's number and place, or `too long`.
 * Exit status: 0 no warning, 1 a warning, 2 refused or too long, a file that can't be read or written, or wrong use. */
#include <stdio.h>
#include <stdlib.h>
#include <string.h>

#include "yudronkha.h"

/* A refusal must never look like a clean script, so trouble has a status of its own. */
enum { CLEAN = 0, FOUND = 1, TROUBLE = 2 };

#define COUNT(array) (sizeof array / sizeof *array)

/* One byte more than a valid tree has, to see that there is one. */
static uint8_t tree[YUDRONKHA_TREE_BYTES_MOST + 1];
static uint16_t work[YUDRONKHA_WORK_WORDS];
static uint32_t answer[YUDRONKHA_RECORDS_MOST * YUDRONKHA_RECORD_WORDS];
static size_t report[YUDRONKHA_SARIF_REPORT_WORDS];

static size_t list(size_t len)
{
    size_t number = yudronkha_lint(tree, len, work, COUNT(work), answer, COUNT(answer), report, COUNT(report));
    if (number != YUDRONKHA_LISTED)
        return number;
    for (size_t k = 0; k < report[0] * YUDRONKHA_RECORD_WORDS; k++)
        printf("%lu%c", (unsigned long)answer[k], (k + 1) % YUDRONKHA_RECORD_WORDS == 0 ? '\n' : ' ');
    printf("total %zu\n", report[0]);
    return number;
}

/* Starts with little room for the log. Where that is refused, report[0] says how many bytes it has, and the second call succeeds. */
static size_t sarif(size_t len)
{
    size_t bytes = 4096;
    for (;;) {
        uint8_t *output = malloc(bytes);
        if (output == NULL) {
            fputs("lint: out of memory\n", stderr);
            exit(TROUBLE);
        }
        size_t number = yudronkha_sarif(tree, len, work, COUNT(work), answer, COUNT(answer), output, bytes, report, COUNT(report));
        if (number == YUDRONKHA_LISTED)
            fwrite(output, 1, report[YUDRONKHA_REPORT_BYTES], stdout);
        free(output);
        if (number != YUDRONKHA_REFUSED_OUTPUT_ROOM)
            return number;
        bytes = report[0];
    }
}

/* Codes of severity disabled are no reason to turn a script down. */
static int status_of(size_t number)
{
    if (number != YUDRONKHA_LISTED)
        return TROUBLE;
    for (size_t code = 1; code <= YUDRONKHA_CODES; code++)
        if (report[code] != 0 && yudronkha_severity(code) == YUDRONKHA_WARNING)
            return FOUND;
    return CLEAN;
}

static int lint(size_t len, int as_log)
{
    if (len > YUDRONKHA_TREE_BYTES_MOST) {
        puts("too long");
        return TROUBLE;
    }
    size_t number = as_log ? sarif(len) : list(len);
    if (number != YUDRONKHA_LISTED)
        printf("refused %zu %zu\n", number, report[0]);
    return status_of(number);
}

int main(int argc, char **argv)
{
    int as_log = argc > 1 && strcmp(argv[1], "--sarif") == 0;
    const char *name = argv[1 + as_log];
    if (argc > 2 + as_log || (name != NULL && name[0] == '-')) {
        fputs("usage: lint [--sarif] [FILE]\n", stderr);
        return TROUBLE;
    }
    if (yudronkha_version() != YUDRONKHA_VERSION) {
        fprintf(stderr, "lint: yudronkha.h is of version %d and the library of %zu\n", YUDRONKHA_VERSION, yudronkha_version());
        return TROUBLE;
    }
    FILE *file = name == NULL ? stdin : fopen(name, "rb");
    size_t len = file == NULL ? 0 : fread(tree, 1, sizeof tree, file);
    if (file == NULL || ferror(file)) {
        perror(name == NULL ? "lint: standard input" : name);
        return TROUBLE;
    }
    int status = lint(len, as_log);
    int unwritten = ferror(stdout);
    if (fclose(stdout) != 0 || unwritten) {
        perror("lint: standard output");
        return TROUBLE;
    }
    return status;
}
