/* A plugin for qemu-x86_64 that counts the executed instructions between two entries of the function bench_mark: a line for each, in the
 * plugin's log, the first for what comes before the first entry. For one thread. */
#include <inttypes.h>
#include <stdio.h>
#include <string.h>
#include <qemu-plugin.h>

QEMU_PLUGIN_EXPORT int qemu_plugin_version = QEMU_PLUGIN_VERSION;

static uint64_t total, last;

static void entered(unsigned cpu, void *data) {
    (void)cpu;
    (void)data;
    char line[32];
    snprintf(line, sizeof line, "%" PRIu64 "\n", total - last);
    last = total;
    qemu_plugin_outs(line);
}

/* A mark is called, so its first instruction begins a block. */
static void translated(qemu_plugin_id_t id, struct qemu_plugin_tb *tb) {
    (void)id;
    for (size_t i = 0; i < qemu_plugin_tb_n_insns(tb); i++) {
        struct qemu_plugin_insn *insn = qemu_plugin_tb_get_insn(tb, i);
        const char *name = i == 0 ? qemu_plugin_insn_symbol(insn) : NULL;
        if (name && strcmp(name, "bench_mark") == 0)
            qemu_plugin_register_vcpu_insn_exec_cb(insn, entered, QEMU_PLUGIN_CB_NO_REGS, NULL);
        qemu_plugin_register_vcpu_insn_exec_inline(insn, QEMU_PLUGIN_INLINE_ADD_U64, &total, 1);
    }
}

QEMU_PLUGIN_EXPORT int qemu_plugin_install(qemu_plugin_id_t id, const qemu_info_t *info, int argc, char **argv) {
    (void)info;
    (void)argc;
    (void)argv;
    qemu_plugin_register_vcpu_tb_trans_cb(id, translated);
    return 0;
}
