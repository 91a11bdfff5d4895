/* A plugin of qemu-user: counts the instructions that a program runs and writes the number to the file $COUNT_TO.
   What it uses of QEMU's plugin interface (version 1) is declared here, since Debian's packages carry no header. */
#include <stddef.h>
#include <stdint.h>
#include <stdio.h>
#include <stdlib.h>

typedef uint64_t id_t_;
struct qemu_plugin_tb;
size_t qemu_plugin_tb_n_insns(const struct qemu_plugin_tb *);
void qemu_plugin_register_vcpu_tb_trans_cb(id_t_, void (*)(id_t_, struct qemu_plugin_tb *));
void qemu_plugin_register_vcpu_tb_exec_inline(struct qemu_plugin_tb *, int, void *, uint64_t);
void qemu_plugin_register_atexit_cb(id_t_, void (*)(id_t_, void *), void *);

int qemu_plugin_version = 1;

static uint64_t count;

enum { ADD = 0 };

static void translated(id_t_ id, struct qemu_plugin_tb *block)
{
    qemu_plugin_register_vcpu_tb_exec_inline(block, ADD, &count, qemu_plugin_tb_n_insns(block));
}

static void ended(id_t_ id, void *none)
{
    FILE *to = fopen(getenv("COUNT_TO"), "w");
    fprintf(to, "%llu\n", (unsigned long long)count);
    fclose(to);
}

int qemu_plugin_install(id_t_ id, const void *info, int argc, char **argv)
{
    qemu_plugin_register_vcpu_tb_trans_cb(id, translated);
    qemu_plugin_register_atexit_cb(id, ended, NULL);
    return 0;
}
