/*
 * A plugin for qemu's user emulator that counts the guest's instructions between two marks: tests/instructions builds and loads it.
 * The guest marks by a system call that no kernel has, MARK: its first argument is START or STOP, its second a number that names
 * what is counted. At each STOP a line "NUMBER INSTRUCTIONS" goes into the file that the option out=FILE names. A block is counted
 * when it begins, and a system call ends its block, so between two marks the count is exact.
 *
 * Debian has no package with qemu-plugin.h, so what is used of it is declared here. PLUGIN_API is the version that is claimed;
 * what is used is the same in all of them.
 */
#include <inttypes.h>
#include <stdint.h>
#include <stdio.h>
#include <string.h>

#ifndef PLUGIN_API
#define PLUGIN_API 1
#endif
#define EXPORT __attribute__((visibility("default")))

enum { START = 1, STOP = 2, MARK = 0x6d61726b };
enum { NO_REGISTERS = 0 };

typedef uint64_t plugin_id;
struct qemu_plugin_tb;
struct qemu_info;
typedef void (*on_translated)(plugin_id id, struct qemu_plugin_tb *block);
typedef void (*on_executed)(unsigned int processor, void *data);
typedef void (*on_call)(plugin_id id, unsigned int processor, int64_t number, uint64_t a1, uint64_t a2, uint64_t a3, uint64_t a4,
    uint64_t a5, uint64_t a6, uint64_t a7, uint64_t a8);
void qemu_plugin_register_vcpu_tb_trans_cb(plugin_id id, on_translated callback);
void qemu_plugin_register_vcpu_tb_exec_cb(struct qemu_plugin_tb *block, on_executed callback, int registers, void *data);
void qemu_plugin_register_vcpu_syscall_cb(plugin_id id, on_call callback);
size_t qemu_plugin_tb_n_insns(const struct qemu_plugin_tb *block);
EXPORT int qemu_plugin_install(plugin_id id, const struct qemu_info *info, int argc, char **argv);

EXPORT int qemu_plugin_version = PLUGIN_API;

static uint64_t count;
static FILE *out;

static void executed(unsigned int processor, void *instructions)
{
    (void)processor;
    count += (uintptr_t)instructions;
}

static void translated(plugin_id id, struct qemu_plugin_tb *block)
{
    uintptr_t instructions = qemu_plugin_tb_n_insns(block);
    (void)id;
    qemu_plugin_register_vcpu_tb_exec_cb(block, executed, NO_REGISTERS, (void *)instructions);
}

static void called(plugin_id id, unsigned int processor, int64_t number, uint64_t what, uint64_t name, uint64_t a3, uint64_t a4,
    uint64_t a5, uint64_t a6, uint64_t a7, uint64_t a8)
{
    (void)id, (void)processor, (void)a3, (void)a4, (void)a5, (void)a6, (void)a7, (void)a8;
    if (number != MARK)
        return;
    if (what == STOP) {
        fprintf(out, "%" PRIu64 " %" PRIu64 "\n", name, count);
        fflush(out);
    }
    count = 0;
}

int qemu_plugin_install(plugin_id id, const struct qemu_info *info, int argc, char **argv)
{
    (void)info;
    if (argc != 1 || strncmp(argv[0], "out=", 4) != 0)
        return 1;
    out = fopen(argv[0] + 4, "w");
    if (!out)
        return 1;
    qemu_plugin_register_vcpu_tb_trans_cb(id, translated);
    qemu_plugin_register_vcpu_syscall_cb(id, called);
    return 0;
}
