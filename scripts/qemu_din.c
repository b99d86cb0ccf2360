/* Writes the memory references of a program that the emulator runs as din lines: label 2 for a fetch, 0 a load, 1 a store, and the low 32
   bits of the address. A plugin of qemu-user 7.2 (Debian 12), whose header no package has: the names that are used are declared here.
   scripts/record builds and uses it:

     gcc -O2 -shared -fPIC -pthread -o qemu_din.so scripts/qemu_din.c
     qemu-arm -plugin ./qemu_din.so,out=1,told=2,skip=0,count=0,flush=0 PROGRAM

   `out` and `told` are open files. To `told` go lines: `begin I`, the process; `end N` once it has ended, N references written; `exec I`
   where process I of the emulator starts another program, and `back I` where that failed; `fork I` where a child, process I, ran by itself. A
   child's references are not written. With `count` the run ends after so many; with `flush` a line that flushes, `4 0`, comes after every
   so many. */
#define _GNU_SOURCE
#include <fcntl.h>
#include <pthread.h>
#include <stdbool.h>
#include <stdint.h>
#include <stdio.h>
#include <stdlib.h>
#include <string.h>
#include <unistd.h>

struct qemu_plugin_tb; /* a block of instructions that are run one after the other */
struct qemu_plugin_insn;
struct about { const char *target; }; /* how qemu_info_t begins */
size_t qemu_plugin_tb_n_insns(const struct qemu_plugin_tb *block);
struct qemu_plugin_insn *qemu_plugin_tb_get_insn(const struct qemu_plugin_tb *block, size_t place);
uint64_t qemu_plugin_insn_vaddr(const struct qemu_plugin_insn *insn);
bool qemu_plugin_mem_is_store(uint32_t info);
void qemu_plugin_register_vcpu_tb_trans_cb(uint64_t id, void (*call)(uint64_t id, struct qemu_plugin_tb *block));
void qemu_plugin_register_vcpu_insn_exec_cb(struct qemu_plugin_insn *insn, void (*call)(unsigned cpu, void *data), int flags, void *data);
void qemu_plugin_register_vcpu_mem_cb(struct qemu_plugin_insn *insn, void (*call)(unsigned cpu, uint32_t info, uint64_t address, void *data),
                                      int flags, int reads_and_writes, void *data);
void qemu_plugin_register_vcpu_syscall_cb(uint64_t id, void (*call)(uint64_t id, unsigned cpu, int64_t number, uint64_t, uint64_t, uint64_t,
                                                                    uint64_t, uint64_t, uint64_t, uint64_t, uint64_t));
void qemu_plugin_register_vcpu_syscall_ret_cb(uint64_t id, void (*call)(uint64_t id, unsigned cpu, int64_t number, int64_t answer));
void qemu_plugin_register_atexit_cb(uint64_t id, void (*call)(uint64_t id, void *data), void *data);

enum { NO_REGISTERS = 0, BOTH = 3, MILLION = 1000000 };
int qemu_plugin_version = 1;

/* the numbers of execve and execveat */
static const struct { const char *target; int64_t exec, exec_at; } systems[] = {
    {"arm", 11, 387}, {"aarch64", 221, 281}, {"x86_64", 59, 322}, {"i386", 11, 358}, {"riscv64", 221, 281}, {"riscv32", 221, 281},
};

static pthread_mutex_t lock = PTHREAD_MUTEX_INITIALIZER; /* the program may have threads */
static char buffer[1 << 16];
static size_t used;
static int out, told;
static pid_t owner;
static bool silent;
static uint64_t skip, count, flush_every, written;
static int64_t exec_number = -1, exec_at_number = -1;

static void tell(const char *word, uint64_t number)
{
    dprintf(told, "%s %llu\n", word, (unsigned long long)number);
}

static void write_out(void)
{
    size_t done = 0;
    if (getpid() != owner) {
        if (!silent)
            tell("fork", getpid());
        silent = true; /* a child that goes on by itself: this recording is its parent's */
        used = 0;
        return;
    }
    while (done < used) {
        ssize_t more = write(out, buffer + done, used - done);
        if (more <= 0)
            _exit(1); /* without `end`: the recording is not whole */
        done += more;
    }
    used = 0;
}

static void tell_million(uint64_t millions)
{
    if (millions < 1000)
        dprintf(2, "%d,000,000 references\n", (int)millions);
    else
        dprintf(2, "%d,%03d,000,000 references\n", (int)(millions / 1000), (int)(millions % 1000));
}

static void take(char label, uint32_t address)
{
    static const char digits[] = "0123456789abcdef";
    int shift = 28;
    pthread_mutex_lock(&lock);
    if (used > sizeof buffer - 16)
        write_out();
    if (silent || skip) {
        skip -= !silent;
        pthread_mutex_unlock(&lock);
        return;
    }
    buffer[used++] = label;
    buffer[used++] = ' ';
    while (shift > 0 && !(address >> shift))
        shift -= 4;
    for (; shift >= 0; shift -= 4)
        buffer[used++] = digits[address >> shift & 15];
    buffer[used++] = '\n';
    written++;
    if (flush_every && written % flush_every == 0) {
        memcpy(buffer + used, "4 0\n", 4);
        used += 4;
    }
    if (written % MILLION == 0 && getpid() == owner)
        tell_million(written / MILLION);
    if (written == count && getpid() == owner) {
        write_out();
        tell("end", written);
        _exit(0);
    }
    pthread_mutex_unlock(&lock);
}

static void on_instruction(unsigned cpu, void *data)
{
    (void)cpu;
    take('2', (uint32_t)(uintptr_t)data);
}

static void on_memory(unsigned cpu, uint32_t info, uint64_t address, void *data)
{
    (void)cpu, (void)data;
    take(qemu_plugin_mem_is_store(info) ? '1' : '0', (uint32_t)address);
}

static void on_translated(uint64_t id, struct qemu_plugin_tb *block)
{
    (void)id;
    for (size_t place = 0; place < qemu_plugin_tb_n_insns(block); place++) {
        struct qemu_plugin_insn *insn = qemu_plugin_tb_get_insn(block, place);
        void *address = (void *)(uintptr_t)qemu_plugin_insn_vaddr(insn);
        qemu_plugin_register_vcpu_insn_exec_cb(insn, on_instruction, NO_REGISTERS, address);
        qemu_plugin_register_vcpu_mem_cb(insn, on_memory, NO_REGISTERS, BOTH, NULL);
    }
}

static void on_call(uint64_t id, unsigned cpu, int64_t number, uint64_t a, uint64_t b, uint64_t c, uint64_t d, uint64_t e, uint64_t f,
                    uint64_t g, uint64_t h)
{
    (void)id, (void)cpu, (void)a, (void)b, (void)c, (void)d, (void)e, (void)f, (void)g, (void)h;
    if (number == exec_number || number == exec_at_number)
        tell("exec", getpid());
}

static void on_call_back(uint64_t id, unsigned cpu, int64_t number, int64_t answer)
{
    (void)id, (void)cpu, (void)answer;
    if (number == exec_number || number == exec_at_number)
        tell("back", getpid());
}

static void on_end(uint64_t id, void *data)
{
    (void)id, (void)data;
    pthread_mutex_lock(&lock); /* for good: other threads that still run add nothing after the end */
    write_out();
    if (!silent)
        tell("end", written);
}

int qemu_plugin_install(uint64_t id, const struct about *info, int argc, char **argv)
{
    unsigned long long number;
    owner = getpid();
    for (int place = 0; place < argc; place++) {
        if (sscanf(argv[place], "out=%llu", &number) == 1)
            out = fcntl(number, F_DUPFD_CLOEXEC, 100), close(number);
        else if (sscanf(argv[place], "told=%llu", &number) == 1)
            told = fcntl(number, F_DUPFD_CLOEXEC, 100), close(number);
        else if (sscanf(argv[place], "skip=%llu", &number) == 1)
            skip = number;
        else if (sscanf(argv[place], "count=%llu", &number) == 1)
            count = number;
        else if (sscanf(argv[place], "flush=%llu", &number) == 1)
            flush_every = number;
    }
    for (size_t place = 0; place < sizeof systems / sizeof *systems; place++)
        if (strcmp(systems[place].target, info->target) == 0)
            exec_number = systems[place].exec, exec_at_number = systems[place].exec_at;
    tell("begin", owner);
    qemu_plugin_register_vcpu_tb_trans_cb(id, on_translated);
    qemu_plugin_register_vcpu_syscall_cb(id, on_call);
    qemu_plugin_register_vcpu_syscall_ret_cb(id, on_call_back);
    qemu_plugin_register_atexit_cb(id, on_end, NULL);
    return 0;
}
