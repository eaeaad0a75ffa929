/* A plugin of qemu (its interface, version 1) that counts the instructions of each function of the program that is emulated: bench/functions.
   Writes "COUNT FUNCTION" for each function to the file that COUNT_OUT names. */
#include <stdint.h>
#include <stdio.h>
#include <stdlib.h>
#include <string.h>

/* What is used of qemu-plugin.h, which no package of Debian's has. */
struct qemu_plugin_tb;
struct qemu_plugin_insn;
typedef uint64_t qemu_plugin_id_t;
void qemu_plugin_register_vcpu_tb_trans_cb(qemu_plugin_id_t id, void (*translated)(qemu_plugin_id_t, struct qemu_plugin_tb *));
void qemu_plugin_register_atexit_cb(qemu_plugin_id_t id, void (*ended)(qemu_plugin_id_t, void *), void *data);
size_t qemu_plugin_tb_n_insns(const struct qemu_plugin_tb *block);
struct qemu_plugin_insn *qemu_plugin_tb_get_insn(const struct qemu_plugin_tb *block, size_t index);
const char *qemu_plugin_insn_symbol(const struct qemu_plugin_insn *instruction);
void qemu_plugin_register_vcpu_tb_exec_inline(struct qemu_plugin_tb *block, int add, void *counter, uint64_t by);

int qemu_plugin_version = 1;

static struct {
    char *name;
    uint64_t count;
} functions[20000];
static size_t known;

static uint64_t *counter(const char *name) {
    if (name == NULL) name = "-";
    for (size_t i = 0; i < known; i++)
        if (strcmp(functions[i].name, name) == 0) return &functions[i].count;
    if (known == sizeof functions / sizeof functions[0]) abort();
    functions[known].name = strdup(name);
    return &functions[known++].count;
}

static void translated(qemu_plugin_id_t id, struct qemu_plugin_tb *block) {
    (void)id;
    const char *name = qemu_plugin_insn_symbol(qemu_plugin_tb_get_insn(block, 0));
    qemu_plugin_register_vcpu_tb_exec_inline(block, 0, counter(name), qemu_plugin_tb_n_insns(block));
}

static void ended(qemu_plugin_id_t id, void *data) {
    (void)id, (void)data;
    const char *path = getenv("COUNT_OUT");
    FILE *out = path == NULL ? NULL : fopen(path, "w");
    if (out == NULL) return;
    for (size_t i = 0; i < known; i++)
        if (functions[i].count > 0) fprintf(out, "%llu %s\n", (unsigned long long)functions[i].count, functions[i].name);
    fclose(out);
}

int qemu_plugin_install(qemu_plugin_id_t id, const void *info, int count, char **words) {
    (void)info, (void)count, (void)words;
    qemu_plugin_register_vcpu_tb_trans_cb(id, translated);
    qemu_plugin_register_atexit_cb(id, ended, NULL);
    return 0;
}
