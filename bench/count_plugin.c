/* Counts the instructions that a program executes under qemu's user emulation, for bench/count.
 *
 * The emulator translates a program block by block. Each block is noted with its length when it is translated, and each
 * time it is entered that length is added up. The sum goes to standard error when the program ends.
 *
 * Debian packages the emulator without qemu-plugin.h, so the part of that interface in use is declared here. That it is
 * written for interface 1, that of Debian 12, is said by qemu_plugin_version. */
#include <inttypes.h>
#include <stddef.h>
#include <stdio.h>

typedef uint64_t plugin_id;
struct qemu_plugin_tb;
struct qemu_info;
enum register_use { NO_REGISTERS };

extern size_t qemu_plugin_tb_n_insns(const struct qemu_plugin_tb *block);
extern void qemu_plugin_register_vcpu_tb_trans_cb(plugin_id id, void (*call)(plugin_id, struct qemu_plugin_tb *));
extern void qemu_plugin_register_vcpu_tb_exec_cb(struct qemu_plugin_tb *block, void (*call)(unsigned, void *),
                                                 enum register_use use, void *passed);
extern void qemu_plugin_register_atexit_cb(plugin_id id, void (*call)(plugin_id, void *), void *passed);

extern int qemu_plugin_version;
int qemu_plugin_version = 1;

static uint64_t executed;

static void on_entry(unsigned processor, void *length)
{
    (void)processor;
    executed += (uintptr_t)length;
}

static void on_translation(plugin_id id, struct qemu_plugin_tb *block)
{
    (void)id;
    qemu_plugin_register_vcpu_tb_exec_cb(block, on_entry, NO_REGISTERS, (void *)(uintptr_t)qemu_plugin_tb_n_insns(block));
}

static void on_end(plugin_id id, void *passed)
{
    (void)id;
    (void)passed;
    fprintf(stderr, "instructions %" PRIu64 "\n", executed);
}

extern int qemu_plugin_install(plugin_id id, const struct qemu_info *emulator, int count, char **arguments);
int qemu_plugin_install(plugin_id id, const struct qemu_info *emulator, int count, char **arguments)
{
    (void)emulator;
    (void)count;
    (void)arguments;
    qemu_plugin_register_vcpu_tb_trans_cb(id, on_translation);
    qemu_plugin_register_atexit_cb(id, on_end, NULL);
    return 0;
}
