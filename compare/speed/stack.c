/* stack FILE..: the most stack that each call of the library takes on any of these trees. A call runs on a thread whose stack is
 * painted first; what a thread that does nothing takes is subtracted. */
#define _GNU_SOURCE
#include <pthread.h>
#include <stdio.h>
#include <string.h>
#include <sys/mman.h>

#include "yudronkha.h"

#define PAINTED (8u << 20)
#define COUNT(array) (sizeof array / sizeof *array)

static uint8_t tree[200000];
static size_t tree_len;
static uint16_t work[YUDRONKHA_WORK_WORDS];
static uint32_t answer[YUDRONKHA_RECORD_WORDS * YUDRONKHA_RECORDS_MOST];
static uint8_t output[YUDRONKHA_LOG_BYTES(YUDRONKHA_RECORDS_MOST)];
static size_t report[YUDRONKHA_SARIF_REPORT_WORDS];
static size_t number;

static void *idle(void *x) { return x; }

static void *lint(void *x)
{
    number = yudronkha_lint(tree, tree_len, work, COUNT(work), answer, COUNT(answer), report, COUNT(report));
    return x;
}

static void *lint_strict(void *x)
{
    number = yudronkha_lint_strict(tree, tree_len, work, COUNT(work), answer, COUNT(answer), report, COUNT(report));
    return x;
}

static void *sarif(void *x)
{
    number = yudronkha_sarif(tree, tree_len, work, COUNT(work), answer, COUNT(answer), output, COUNT(output), report, COUNT(report));
    return x;
}

static void *sarif_strict(void *x)
{
    number = yudronkha_sarif_strict(tree, tree_len, work, COUNT(work), answer, COUNT(answer), output, COUNT(output), report,
                                    COUNT(report));
    return x;
}

/* What takes no tree: every code's severity and name, and the version. */
static void *codes(void *x)
{
    number = yudronkha_version() != YUDRONKHA_VERSION;
    for (size_t code = 0; code <= YUDRONKHA_CODES + 1; code++)
        number += yudronkha_severity(code) > 1 || yudronkha_short_name(code, output, COUNT(output)) > YUDRONKHA_NAME_BYTES;
    return x;
}

static struct call {
    const char *name;
    void *(*run)(void *);
    size_t most;
    const char *at;
} calls[] = {
    {"yudronkha_lint", lint, 0, ""},
    {"yudronkha_lint_strict", lint_strict, 0, ""},
    {"yudronkha_sarif", sarif, 0, ""},
    {"yudronkha_sarif_strict", sarif_strict, 0, ""},
    {"severity, short_name, version", codes, 0, ""},
};

static size_t used(unsigned char *stack, void *(*run)(void *))
{
    pthread_attr_t with;
    pthread_t thread;
    size_t clean = 0;
    memset(stack, 0xa5, PAINTED);
    pthread_attr_init(&with);
    pthread_attr_setstack(&with, stack, PAINTED);
    if (pthread_create(&thread, &with, run, NULL) != 0)
        return 0;
    pthread_join(thread, NULL);
    while (clean < PAINTED && stack[clean] == 0xa5)
        clean++;
    return PAINTED - clean;
}

static int measure(unsigned char *stack, size_t base, const char *name)
{
    FILE *file = fopen(name, "rb");
    if (file == NULL) {
        perror(name);
        return 0;
    }
    tree_len = fread(tree, 1, sizeof tree, file);
    fclose(file);
    for (struct call *c = calls; c < calls + COUNT(calls); c++) {
        size_t now = used(stack, c->run) - base;
        if (number != YUDRONKHA_LISTED) {
            printf("%s: %s answers %zu\n", name, c->name, number);
            return 0;
        }
        printf("%zu ", now);
        if (now > c->most) {
            c->most = now;
            c->at = name;
        }
    }
    printf("%s\n", name);
    return 1;
}

int main(int count, char **names)
{
    unsigned char *stack = mmap(NULL, PAINTED, PROT_READ | PROT_WRITE, MAP_PRIVATE | MAP_ANONYMOUS, -1, 0);
    size_t base = used(stack, idle);
    for (int i = 1; i < count; i++)
        if (!measure(stack, base, names[i]))
            return 1;
    for (struct call *c = calls; c < calls + COUNT(calls); c++)
        printf("most of %s: %zu bytes, %s, of %d trees\n", c->name, c->most, c->at, count - 1);
    return 0;
}
