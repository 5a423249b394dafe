// For LD_PRELOAD over a built program, in tests alone: lets chosen calls of the program fail, or move few bytes each.
//
// FAULTS has words between single spaces: `read=3:5` lets the program's third read fail with errno 5 (0: it answers 0 bytes), `read=3+:5` each from the
// third on, and `read=3:5@rx2` counts only reads of files whose path ends so. Kinds are memory, read, write, open and thread. `chunk=SIZE` lets each
// read and write move at most SIZE bytes. Calls that the C library makes by itself don't count. FAULTS_TOLD names a file that gets, as numbers of eight
// bytes, the calls of each kind, how many failed, how many bytes the file of the first one that failed had moved before, and how many bytes that read asked
// for which asked for the fewest; then the path of that file.
#define _GNU_SOURCE
#include <dlfcn.h>
#include <errno.h>
#include <fcntl.h>
#include <link.h>
#include <pthread.h>
#include <stdarg.h>
#include <stdatomic.h>
#include <stdio.h>
#include <stdlib.h>
#include <string.h>
#include <sys/mman.h>
#include <sys/syscall.h>
#include <unistd.h>

enum { MEMORY, READ, WRITE, OPEN, THREAD, KINDS };
static const char *const NAMES[KINDS] = {"memory", "read", "write", "open", "thread"};

static struct told {
    atomic_ulong calls[KINDS], failed, before, least;
    char path[256];
} nowhere, *told = &nowhere;

static struct rule {
    int kind, later, error;
    unsigned long number;
    const char *end;
    size_t end_size;
    atomic_ulong calls;
} rules[8];
static int rule_count;
static unsigned long chunk;
static atomic_ulong moved[1024];
static unsigned long program_from, program_to;

static int find_program(struct dl_phdr_info *info, size_t size, void *unused) {
    (void)size, (void)unused;
    for (int k = 0; k < info->dlpi_phnum; k++) {
        if (info->dlpi_phdr[k].p_type == PT_LOAD && info->dlpi_phdr[k].p_flags & PF_X) {
            program_from = info->dlpi_addr + info->dlpi_phdr[k].p_vaddr;
            program_to = program_from + info->dlpi_phdr[k].p_memsz;
        }
    }
    return 1; // the first one is the program itself
}

static void read_rule(const char *word, size_t size) {
    for (int kind = 0; kind < KINDS; kind++) {
        size_t length = strlen(NAMES[kind]);
        if (strncmp(word, NAMES[kind], length) || word[length] != '=' || rule_count == 8) continue;
        struct rule *rule = &rules[rule_count++];
        char *behind;
        rule->kind = kind;
        rule->number = strtoul(word + length + 1, &behind, 10);
        rule->later = *behind == '+';
        rule->error = strtol(behind + rule->later + 1, &behind, 10);
        if (*behind == '@') rule->end = behind + 1, rule->end_size = word + size - rule->end;
    }
}

__attribute__((constructor)) static void begin(void) {
    const char *path = getenv("FAULTS_TOLD"), *word = getenv("FAULTS");
    int file = path ? (int)syscall(SYS_openat, AT_FDCWD, path, O_RDWR | O_CREAT | O_TRUNC, 0600) : -1;
    if (file >= 0 && ftruncate(file, sizeof *told) == 0) {
        void *shared = mmap(NULL, sizeof *told, PROT_READ | PROT_WRITE, MAP_SHARED, file, 0);
        if (shared != MAP_FAILED) told = shared;
    }
    if (file >= 0) syscall(SYS_close, file);
    while (word && *word) {
        size_t size = strcspn(word, " ");
        sscanf(word, "chunk=%lu", &chunk);
        read_rule(word, size);
        word += size + (word[size] == ' ');
    }
    dl_iterate_phdr(find_program, NULL);
}

static int ends_so(const char *path, const struct rule *rule) {
    size_t size = strlen(path);
    return !rule->end || (size >= rule->end_size && !memcmp(path + size - rule->end_size, rule->end, rule->end_size));
}

static int is_program(void *caller) { return (unsigned long)caller >= program_from && (unsigned long)caller < program_to; }

// Counts a call of the program; the errno that it is to fail with, or -1 where it isn't. `path` is null where the call is for no file.
static int fault(int kind, void *caller, const char *path, unsigned long before) {
    if (!is_program(caller)) return -1;
    atomic_fetch_add(&told->calls[kind], 1);
    int found = -1;
    for (struct rule *rule = rules; rule < rules + rule_count; rule++) {
        if (rule->kind != kind || (path && !ends_so(path, rule))) continue;
        unsigned long number = atomic_fetch_add(&rule->calls, 1) + 1;
        if (number == rule->number || (rule->later && number > rule->number)) found = rule->error;
    }
    if (found >= 0 && atomic_fetch_add(&told->failed, 1) == 0) {
        atomic_store(&told->before, before);
        if (path) strncpy(told->path, path, sizeof told->path - 1);
    }
    return found;
}

static void find_path(int file, char *path, size_t room) {
    char link[64];
    snprintf(link, sizeof link, "/proc/self/fd/%d", file);
    ssize_t length = readlink(link, path, room - 1);
    path[length < 0 ? 0 : length] = 0;
}

static ssize_t transfer(int kind, void *caller, int file, void *bytes, size_t size) {
    char path[256];
    find_path(file, path, sizeof path);
    atomic_ulong *sum = &moved[file & 1023];
    int error = fault(kind, caller, path, atomic_load(sum));
    if (error >= 0) {
        errno = error;
        return error ? -1 : 0;
    }
    unsigned long least = atomic_load(&told->least);
    if (kind == READ && is_program(caller)) {
        while ((!least || size < least) && !atomic_compare_exchange_weak(&told->least, &least, size)) {
        }
    }
    if (chunk && size > chunk) size = chunk;
    ssize_t count = kind == READ ? syscall(SYS_read, file, bytes, size) : syscall(SYS_write, file, bytes, size);
    if (count > 0) atomic_fetch_add(sum, count);
    return count;
}

#define CALLER __builtin_return_address(0)
#define NEXT(name) ((__typeof__(&name))dlsym(RTLD_NEXT, #name))

ssize_t read(int file, void *into, size_t size) { return transfer(READ, CALLER, file, into, size); }
ssize_t write(int file, const void *from, size_t size) { return transfer(WRITE, CALLER, file, (void *)from, size); }
ssize_t __write(int file, const void *from, size_t size) { return transfer(WRITE, CALLER, file, (void *)from, size); }

void *malloc(size_t size) {
    static __typeof__(&malloc) next;
    if (!next) next = NEXT(malloc);
    return fault(MEMORY, CALLER, NULL, 0) >= 0 ? NULL : next(size);
}

void *realloc(void *old, size_t size) {
    static __typeof__(&realloc) next;
    if (!next) next = NEXT(realloc);
    return fault(MEMORY, CALLER, NULL, 0) >= 0 ? NULL : next(old, size);
}

int open(const char *path, int flags, ...) {
    va_list rest;
    va_start(rest, flags);
    int mode = flags & O_CREAT ? va_arg(rest, int) : 0;
    va_end(rest);
    int error = fault(OPEN, CALLER, path, 0);
    if (error >= 0) {
        errno = error;
        return -1;
    }
    return syscall(SYS_openat, AT_FDCWD, path, flags, mode);
}

int pthread_create(pthread_t *thread, const pthread_attr_t *attributes, void *(*body)(void *), void *argument) {
    static __typeof__(&pthread_create) next;
    if (!next) next = NEXT(pthread_create);
    return fault(THREAD, CALLER, NULL, 0) >= 0 ? EAGAIN : next(thread, attributes, body, argument);
}
