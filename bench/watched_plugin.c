/* A plugin of qemu (its API of version 1) that writes down what a program executes between two places: the address of each instruction, and each address that it
 * loads from or stores to, as two numbers of 64 bits.
 *
 *   -plugin watched_plugin.so,begins=ADDRESS,ends=ADDRESS,to=FILE
 *
 * Debian has no header of that API, so what is used of it is declared here. */
#include <stddef.h>
#include <stdint.h>
#include <stdio.h>
#include <stdlib.h>
#include <string.h>

typedef uint64_t plugin;
struct block;
struct instruction;

void qemu_plugin_register_vcpu_tb_trans_cb(plugin id, void (*call)(plugin id, struct block *of));
size_t qemu_plugin_tb_n_insns(const struct block *of);
struct instruction *qemu_plugin_tb_get_insn(const struct block *of, size_t at);
uint64_t qemu_plugin_insn_vaddr(const struct instruction *it);
void qemu_plugin_register_vcpu_insn_exec_cb(struct instruction *it, void (*call)(unsigned cpu, void *with), int registers, void *with);
void qemu_plugin_register_vcpu_mem_cb(struct instruction *it, void (*call)(unsigned cpu, uint32_t how, uint64_t address, void *with), int registers, int which,
                                      void *with);
void qemu_plugin_register_atexit_cb(plugin id, void (*call)(plugin id, void *with), void *with);

enum { NO_REGISTERS = 0, LOADS_AND_STORES = 3 };

__attribute__((visibility("default"))) int qemu_plugin_version = 1;

static uint64_t begins, ends;
static int is_on;
static FILE *to;

static void write_down(uint64_t instruction, uint64_t address) {
    uint64_t both[] = {instruction, address};
    if (is_on && fwrite(both, sizeof both, 1, to) != 1) abort();
}

static uint64_t number(const void *with) { return (uint64_t)(uintptr_t)with; }

static void on_instruction(unsigned cpu, void *with) {
    (void)cpu;
    if (number(with) == begins) is_on = 1;
    if (number(with) == ends) is_on = 0;
    write_down(number(with), 0);
}

static void on_memory(unsigned cpu, uint32_t how, uint64_t address, void *with) {
    (void)cpu;
    (void)how;
    write_down(number(with), address);
}

static void on_block(plugin id, struct block *of) {
    (void)id;
    for (size_t at = 0; at < qemu_plugin_tb_n_insns(of); at++) {
        struct instruction *it = qemu_plugin_tb_get_insn(of, at);
        void *where = (void *)(uintptr_t)qemu_plugin_insn_vaddr(it);
        qemu_plugin_register_vcpu_insn_exec_cb(it, on_instruction, NO_REGISTERS, where);
        qemu_plugin_register_vcpu_mem_cb(it, on_memory, NO_REGISTERS, LOADS_AND_STORES, where);
    }
}

static void at_end(plugin id, void *with) {
    (void)id;
    (void)with;
    if (fclose(to) != 0) abort();
}

__attribute__((visibility("default"))) int qemu_plugin_install(plugin id, const void *of, int count, char **words);

int qemu_plugin_install(plugin id, const void *of, int count, char **words) {
    (void)of;
    for (int at = 0; at < count; at++) {
        if (strncmp(words[at], "begins=", 7) == 0) begins = strtoull(words[at] + 7, NULL, 16);
        if (strncmp(words[at], "ends=", 5) == 0) ends = strtoull(words[at] + 5, NULL, 16);
        if (strncmp(words[at], "to=", 3) == 0) to = fopen(words[at] + 3, "wb");
    }
    if (begins == 0 || ends == 0 || to == NULL) return 1;
    qemu_plugin_register_vcpu_tb_trans_cb(id, on_block);
    qemu_plugin_register_atexit_cb(id, at_end, NULL);
    return 0;
}
