/* A library that is loaded before the C library, on x86-64. It counts the instructions that the program runs after it has
   written a text that begins with FROM, until it writes to standard output again. Meanwhile the processor traps after each
   instruction, and the handler below counts the traps. So the count doesn't depend on how busy the machine is.

   The file LOG gets a line with each count. If a count passes MOST, it gets the line `over`, and the program ends. The program
   must have no other thread. */
#define _GNU_SOURCE
#include <dlfcn.h>
#include <fcntl.h>
#include <signal.h>
#include <stdio.h>
#include <stdlib.h>
#include <string.h>
#include <unistd.h>

/* The flag of the processor by which it traps after each instruction. */
#define TRAP 0x100

static int is_counting;
static long count, most;
static ssize_t (*next_write)(int, const void *, size_t);

static void log_line(const char *format, long number) {
    char line[40];
    int log = open(getenv("LOG"), O_CREAT | O_WRONLY | O_APPEND | O_CLOEXEC, 0600);
    int length = snprintf(line, sizeof line, format, number);
    if (next_write(log, line, length) != length)
        abort();
    close(log);
}

static void step(int number, siginfo_t *info, void *context) {
    (void)number;
    (void)info;
    count += 1;
    if (count <= most)
        return;
    ((ucontext_t *)context)->uc_mcontext.gregs[REG_EFL] &= ~TRAP;
    log_line("over\n", 0);
    _exit(1);
}

/* The flags are read and set on the stack. A function may use the 128 bytes below the stack pointer without moving it, so these
   are left out. */
static unsigned long flags(void) {
    unsigned long value;
    __asm__ volatile("lea -128(%%rsp), %%rsp\n\tpushfq\n\tpop %0\n\tlea 128(%%rsp), %%rsp" : "=r"(value)::"memory");
    return value;
}

static void set_flags(unsigned long value) {
    __asm__ volatile("lea -128(%%rsp), %%rsp\n\tpush %0\n\tpopfq\n\tlea 128(%%rsp), %%rsp" ::"r"(value) : "cc", "memory");
}

static void begin(void) {
    struct sigaction action = {.sa_sigaction = step, .sa_flags = SA_SIGINFO};
    if (sigaction(SIGTRAP, &action, NULL) != 0)
        abort();
    most = atol(getenv("MOST"));
    count = 0;
    is_counting = 1;
    set_flags(flags() | TRAP);
}

static void end(void) {
    set_flags(flags() & ~(unsigned long)TRAP);
    is_counting = 0;
    log_line("%ld\n", count);
}

ssize_t write(int file, const void *text, size_t length) {
    const char *from = getenv("FROM");
    if (is_counting && file == 1)
        end();
    if (next_write == NULL)
        next_write = (ssize_t(*)(int, const void *, size_t))dlsym(RTLD_NEXT, "write");
    ssize_t written = next_write(file, text, length);
    if (file == 1 && length >= strlen(from) && memcmp(text, from, strlen(from)) == 0)
        begin();
    return written;
}
