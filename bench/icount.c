/* A plugin for qemu-user that counts the instructions which the emulated program executes, and writes the number to the
   file that its option out= names. A string instruction with a repeat prefix counts once for each turn and once to end.
   Debian ships no header for plugins, so the four functions that are used are declared here. */
#include <stddef.h>
#include <stdint.h>
#include <stdio.h>
#include <string.h>

struct qemu_plugin_tb;
typedef void on_translate(uint64_t plugin, struct qemu_plugin_tb *block);
typedef void on_execute(unsigned cpu, void *block_length);
typedef void on_exit(uint64_t plugin, void *nothing);

size_t qemu_plugin_tb_n_insns(const struct qemu_plugin_tb *block);
void qemu_plugin_register_vcpu_tb_trans_cb(uint64_t plugin, on_translate *callback);
void qemu_plugin_register_vcpu_tb_exec_cb(struct qemu_plugin_tb *block, on_execute *callback, int flags, void *data);
void qemu_plugin_register_atexit_cb(uint64_t plugin, on_exit *callback, void *data);

/* qemu refuses a plugin that was built for another number than it speaks; build.py finds the right one */
int qemu_plugin_version = PLUGIN_API;

static uint64_t executed;
static char out[4096];

static void execute(unsigned cpu, void *block_length)
{
    (void)cpu;
    executed += (uintptr_t)block_length;
}

static void translate(uint64_t plugin, struct qemu_plugin_tb *block)
{
    (void)plugin;
    qemu_plugin_register_vcpu_tb_exec_cb(block, execute, 0, (void *)(uintptr_t)qemu_plugin_tb_n_insns(block));
}

static void finish(uint64_t plugin, void *nothing)
{
    (void)plugin, (void)nothing;
    FILE *file = fopen(out, "w");
    if (file) {
        fprintf(file, "%llu\n", (unsigned long long)executed);
        fclose(file);
    }
}

int qemu_plugin_install(uint64_t plugin, const void *info, int words, char **word)
{
    (void)info;
    if (words != 1 || strncmp(word[0], "out=", 4) || strlen(word[0]) >= sizeof out)
        return -1;
    strcpy(out, word[0] + 4);
    qemu_plugin_register_vcpu_tb_trans_cb(plugin, translate);
    qemu_plugin_register_atexit_cb(plugin, finish, NULL);
    return 0;
}
