/* A plugin for qemu-user that counts the instructions from the entry of one function to its return, a line for each call.
   -plugin libcount_insn.so,from=0xADDRESS,to=0xADDRESS,out=FILE: from its first byte to the one after its last, which must return. */
#include <inttypes.h>
#include <stdbool.h>
#include <stdio.h>
#include <stdlib.h>
#include <string.h>

/* What is used of qemu-plugin.h, which Debian does not ship */
#define EXPORT __attribute__((visibility("default")))
typedef uint64_t qemu_plugin_id_t;
struct qemu_plugin_tb;
struct qemu_plugin_insn;
enum qemu_plugin_cb_flags { QEMU_PLUGIN_CB_NO_REGS };
void qemu_plugin_register_vcpu_tb_trans_cb(qemu_plugin_id_t id, void (*translated)(qemu_plugin_id_t id, struct qemu_plugin_tb *block));
void qemu_plugin_register_vcpu_insn_exec_cb(struct qemu_plugin_insn *instruction, void (*runs)(unsigned processor, void *place), enum qemu_plugin_cb_flags flags, void *place);
void qemu_plugin_register_atexit_cb(qemu_plugin_id_t id, void (*done)(qemu_plugin_id_t id, void *what), void *what);
size_t qemu_plugin_tb_n_insns(const struct qemu_plugin_tb *block);
struct qemu_plugin_insn *qemu_plugin_tb_get_insn(const struct qemu_plugin_tb *block, size_t index);
uint64_t qemu_plugin_insn_vaddr(const struct qemu_plugin_insn *instruction);
size_t qemu_plugin_insn_size(const struct qemu_plugin_insn *instruction);

EXPORT int qemu_plugin_version = PLUGIN_VERSION;

static uint64_t from, to, count;
static bool inside;
static FILE *out;

/* Each instruction by itself: counted by blocks as they were translated, the sum came out too high. */
typedef enum { FIRST, LAST, OTHER } place;
static place places[] = { FIRST, LAST, OTHER };

static void runs(unsigned processor, void *what)
{
    place at = *(place *)what;
    (void)processor;
    if (at == FIRST) {
        inside = true;
        count = 0;
    }
    if (!inside) return;
    count++;
    if (at == LAST) {
        inside = false;
        fprintf(out, "%" PRIu64 "\n", count);
    }
}

static void translated(qemu_plugin_id_t id, struct qemu_plugin_tb *block)
{
    (void)id;
    for (size_t i = 0; i < qemu_plugin_tb_n_insns(block); i++) {
        struct qemu_plugin_insn *one = qemu_plugin_tb_get_insn(block, i);
        uint64_t at = qemu_plugin_insn_vaddr(one);
        place what = at == from ? FIRST : at + qemu_plugin_insn_size(one) == to ? LAST : OTHER;
        qemu_plugin_register_vcpu_insn_exec_cb(one, runs, QEMU_PLUGIN_CB_NO_REGS, &places[what]);
    }
}

static void done(qemu_plugin_id_t id, void *nothing)
{
    (void)id;
    (void)nothing;
    fclose(out);
}

EXPORT int qemu_plugin_install(qemu_plugin_id_t id, const void *info, int words, char **word)
{
    (void)info;
    for (int i = 0; i < words; i++) {
        if (strncmp(word[i], "from=", 5) == 0) from = strtoull(word[i] + 5, NULL, 0);
        else if (strncmp(word[i], "to=", 3) == 0) to = strtoull(word[i] + 3, NULL, 0);
        else if (strncmp(word[i], "out=", 4) == 0) out = fopen(word[i] + 4, "w");
    }
    if (!from || !to || !out) return 1;
    qemu_plugin_register_vcpu_tb_trans_cb(id, translated);
    qemu_plugin_register_atexit_cb(id, done, NULL);
    return 0;
}
