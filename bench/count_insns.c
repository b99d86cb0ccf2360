/* Counts the x86-64 instructions of a program that the emulator runs, for machines that are not x86-64. At the program's end
   it writes `instructions=N` to standard error. A plugin of qemu-user 7.2 (Debian 12), whose header no package has: the names
   that are used are declared here. scripts/bench builds and uses it:

     gcc -O2 -shared -fPIC -o count_insns.so bench/count_insns.c
     qemu-x86_64 -plugin ./count_insns.so PROGRAM */
#include <stddef.h>
#include <stdint.h>
#include <stdio.h>

struct qemu_plugin_tb; /* a block of instructions that are run one after the other */
size_t qemu_plugin_tb_n_insns(const struct qemu_plugin_tb *block);
void qemu_plugin_register_vcpu_tb_trans_cb(uint64_t id, void (*call)(uint64_t id, struct qemu_plugin_tb *block));
void qemu_plugin_register_vcpu_tb_exec_inline(struct qemu_plugin_tb *block, int operation, void *at, uint64_t number);
void qemu_plugin_register_atexit_cb(uint64_t id, void (*call)(uint64_t id, void *data), void *data);

enum { ADD = 0 };
int qemu_plugin_version = 1;
static uint64_t instructions;

static void on_translated(uint64_t id, struct qemu_plugin_tb *block)
{
    (void)id;
    qemu_plugin_register_vcpu_tb_exec_inline(block, ADD, &instructions, qemu_plugin_tb_n_insns(block));
}

static void on_end(uint64_t id, void *data)
{
    (void)id, (void)data;
    fprintf(stderr, "instructions=%llu\n", (unsigned long long)instructions);
}

int qemu_plugin_install(uint64_t id, const void *info, int argc, char **argv)
{
    (void)info, (void)argc, (void)argv;
    qemu_plugin_register_vcpu_tb_trans_cb(id, on_translated);
    qemu_plugin_register_atexit_cb(id, on_end, NULL);
    return 0;
}
