/*
 * A plugin for qemu-x86_64 that counts executed instructions. At the end it
 * writes a line for each block of code, its instructions times its runs and
 * the function it begins in, to the file that COUNT_FILE names.
 *
 *     cc -O2 -shared -fPIC -o instructions.so instructions.c
 *     COUNT_FILE=counts qemu-x86_64 -plugin ./instructions.so PROGRAM
 */
#include <inttypes.h>
#include <stdio.h>
#include <stdlib.h>

/* What is used of QEMU's public plugin interface, version 1. */
typedef uint64_t id_type;
struct qemu_plugin_tb;
struct qemu_plugin_insn;
enum operation { ADD };
void qemu_plugin_register_vcpu_tb_trans_cb(id_type, void (*)(id_type, struct qemu_plugin_tb *));
void qemu_plugin_register_vcpu_tb_exec_inline(struct qemu_plugin_tb *, enum operation, void *, uint64_t);
size_t qemu_plugin_tb_n_insns(const struct qemu_plugin_tb *);
struct qemu_plugin_insn *qemu_plugin_tb_get_insn(const struct qemu_plugin_tb *, size_t);
const char *qemu_plugin_insn_symbol(const struct qemu_plugin_insn *);
void qemu_plugin_register_atexit_cb(id_type, void (*)(id_type, void *), void *);
int qemu_plugin_version = 1;

struct block {
    const char *symbol;
    uint64_t executed;
    struct block *next;
};
static struct block *blocks;

static void translated(id_type id, struct qemu_plugin_tb *tb)
{
    struct block *block = calloc(1, sizeof *block);
    block->symbol = qemu_plugin_insn_symbol(qemu_plugin_tb_get_insn(tb, 0));
    block->next = blocks;
    blocks = block;
    qemu_plugin_register_vcpu_tb_exec_inline(tb, ADD, &block->executed, qemu_plugin_tb_n_insns(tb));
}

static void ended(id_type id, void *unused)
{
    FILE *file = fopen(getenv("COUNT_FILE"), "w");
    for (struct block *block = blocks; block; block = block->next)
        fprintf(file, "%" PRIu64 " %s\n", block->executed, block->symbol ? block->symbol : "elsewhere");
    fclose(file);
}

int qemu_plugin_install(id_type id, const void *info, int argc, char **argv)
{
    qemu_plugin_register_vcpu_tb_trans_cb(id, translated);
    qemu_plugin_register_atexit_cb(id, ended, 0);
    return 0;
}
