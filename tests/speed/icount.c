/*
 * A plugin for QEMU's user emulator: counts the instructions that a program
 * executes and prints the sum at its end. The few declarations that it needs
 * stand here, as the emulator's package has no header. They are the same in
 * all versions of the interface, but the plugin must name the emulator's own.
 */
#include <stddef.h>
#include <stdint.h>
#include <stdio.h>

typedef uint64_t qemu_plugin_id_t;
struct qemu_plugin_tb;

extern void qemu_plugin_register_vcpu_tb_trans_cb(qemu_plugin_id_t id,
                                                  void (*call)(qemu_plugin_id_t, struct qemu_plugin_tb *));
extern void qemu_plugin_register_vcpu_tb_exec_cb(struct qemu_plugin_tb *block, void (*call)(unsigned, void *),
                                                 int flags, void *data);
extern size_t qemu_plugin_tb_n_insns(const struct qemu_plugin_tb *block);
extern void qemu_plugin_register_atexit_cb(qemu_plugin_id_t id, void (*call)(qemu_plugin_id_t, void *), void *data);

#ifndef INTERFACE
#define INTERFACE 1
#endif
extern int qemu_plugin_version;
int qemu_plugin_version = INTERFACE;

static uint64_t count;

static void block_runs(unsigned cpu, void *instructions)
{
    (void)cpu;
    count += (uintptr_t)instructions;
}

static void block_made(qemu_plugin_id_t id, struct qemu_plugin_tb *block)
{
    (void)id;
    qemu_plugin_register_vcpu_tb_exec_cb(block, block_runs, 0, (void *)qemu_plugin_tb_n_insns(block));
}

static void at_end(qemu_plugin_id_t id, void *data)
{
    (void)id;
    (void)data;
    (void)fprintf(stderr, "instructions=%llu\n", (unsigned long long)count);
}

int qemu_plugin_install(qemu_plugin_id_t id, const void *info, int argc, char **argv);
int qemu_plugin_install(qemu_plugin_id_t id, const void *info, int argc, char **argv)
{
    (void)info;
    (void)argc;
    (void)argv;
    qemu_plugin_register_vcpu_tb_trans_cb(id, block_made);
    qemu_plugin_register_atexit_cb(id, at_end, NULL);
    return 0;
}
