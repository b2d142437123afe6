/* Stands before the C library's calls for memory in a process that is started with LD_PRELOAD, and refuses one of them.
 *
 *   REFUSE=N         the Nth request that is made after main has begun is refused (0, or nothing: none)
 *   REFUSE_ON=1      and so is each later one
 *   REQUESTS_TO=FILE the number of requests made is written there at the end
 *
 * Requests of all threads are counted together. Nothing else is changed. */
#define _GNU_SOURCE
#include <dlfcn.h>
#include <errno.h>
#include <fcntl.h>
#include <stdatomic.h>
#include <stddef.h>
#include <stdio.h>
#include <stdlib.h>
#include <string.h>
#include <sys/mman.h>
#include <sys/syscall.h>
#include <unistd.h>

extern void *__libc_malloc(size_t size);
extern void *__libc_calloc(size_t count, size_t size);
extern void *__libc_realloc(void *old, size_t size);
extern void *__libc_memalign(size_t align, size_t size);

static atomic_int counting;
static atomic_ulong requests;
static unsigned long refused;
static int and_later;
static int file = -1;
static int (*program)(int, char **, char **);
static void *(*real_mmap)(void *, size_t, int, int, int, off_t);

static int is_refused(void) {
    if (!counting) return 0;
    unsigned long number = atomic_fetch_add(&requests, 1) + 1;
    if (refused == 0 || (and_later ? number < refused : number != refused)) return 0;
    errno = ENOMEM;
    return 1;
}

void *malloc(size_t size) { return is_refused() ? NULL : __libc_malloc(size); }
void *calloc(size_t count, size_t size) { return is_refused() ? NULL : __libc_calloc(count, size); }
void *realloc(void *old, size_t size) { return is_refused() ? NULL : __libc_realloc(old, size); }
void *memalign(size_t align, size_t size) { return is_refused() ? NULL : __libc_memalign(align, size); }
void *aligned_alloc(size_t align, size_t size) { return is_refused() ? NULL : __libc_memalign(align, size); }

int posix_memalign(void **block, size_t align, size_t size) {
    if (is_refused()) return ENOMEM;
    *block = __libc_memalign(align, size);
    return *block == NULL ? ENOMEM : 0;
}

void *mmap(void *at, size_t size, int access, int flags, int file, off_t offset) {
    if (!real_mmap) *(void **)&real_mmap = dlsym(RTLD_NEXT, "mmap");
    return is_refused() ? MAP_FAILED : real_mmap(at, size, access, flags, file, offset);
}

static int tell(int status) {
    char text[32];
    counting = 0;
    int length = snprintf(text, sizeof text, "%lu\n", (unsigned long)requests);
    return file < 0 || write(file, text, length) == length ? status : 99;
}

static int counted(int argc, char **argv, char **env) {
    counting = 1;
    return tell(program(argc, argv, env));
}

/* A process may end here and not by a return from main. */
void _exit(int status) {
    syscall(SYS_exit_group, counting ? tell(status) : status);
    __builtin_unreachable();
}

int __libc_start_main(int (*main)(int, char **, char **), int argc, char **argv, void (*init)(void),
                      void (*fini)(void), void (*rtld_fini)(void), void *stack_end) {
    int (*real)(int (*)(int, char **, char **), int, char **, void (*)(void), void (*)(void), void (*)(void), void *);
    *(void **)&real = dlsym(RTLD_NEXT, "__libc_start_main");
    const char *number = getenv("REFUSE");
    refused = number ? strtoul(number, NULL, 10) : 0;
    and_later = getenv("REFUSE_ON") != NULL;
    const char *told = getenv("REQUESTS_TO");
    if (told) file = open(told, O_WRONLY | O_CREAT | O_TRUNC | O_CLOEXEC, 0600);
    program = main;
    return real(counted, argc, argv, init, fini, rtld_fini, stack_end);
}
