/* A library to be preloaded into a process: it counts the calls that ask for memory and refuses some of them.
 *
 *   REFUSE_AT=N     refuses the Nth call of malloc, calloc, realloc, reallocarray, aligned_alloc, memalign or
 *                   posix_memalign, counted from 1; 0 or nothing refuses none
 *   REFUSE_REST=1   refuses every later call too
 *   REFUSE_LOG=PATH when the process ends, a line "calls REFUSED CALLS OUTSIDE" goes into this file. OUTSIDE counts
 *                   the calls that did not come from the program's own code, as those of the C library
 *
 * Build: cc -O2 -shared -fPIC -o refuse.so refuse.c
 */
#define _GNU_SOURCE
#include <errno.h>
#include <fcntl.h>
#include <link.h>
#include <stdatomic.h>
#include <stddef.h>
#include <stdint.h>
#include <stdio.h>
#include <stdlib.h>
#include <string.h>
#include <sys/syscall.h>
#include <unistd.h>

extern void *__libc_malloc(size_t size);
extern void *__libc_calloc(size_t count, size_t size);
extern void *__libc_realloc(void *old, size_t size);
extern void *__libc_memalign(size_t align, size_t size);

static atomic_long calls, refused, outside;
static long refuse_at;
static int refuse_rest, ready;
static char log_path[4096];
static uintptr_t text_low, text_high;

/* The first object is the program itself. */
static int find_text(struct dl_phdr_info *info, size_t size, void *data)
{
    (void)size;
    (void)data;
    for (int i = 0; i < info->dlpi_phnum; i++) {
        const ElfW(Phdr) *part = &info->dlpi_phdr[i];
        if (part->p_type == PT_LOAD && (part->p_flags & PF_X)) {
            text_low = info->dlpi_addr + part->p_vaddr;
            text_high = text_low + part->p_memsz;
        }
    }
    return 1;
}

__attribute__((constructor)) static void begin(void)
{
    const char *at = getenv("REFUSE_AT"), *rest = getenv("REFUSE_REST"), *path = getenv("REFUSE_LOG");
    refuse_at = at ? atol(at) : 0;
    refuse_rest = rest && *rest == '1';
    if (path && strlen(path) < sizeof log_path)
        strcpy(log_path, path);
    dl_iterate_phdr(find_text, NULL);
    ready = 1;
}

__attribute__((destructor)) static void end(void)
{
    char line[128];
    int length, file;
    ready = 0;
    if (!*log_path)
        return;
    length = snprintf(line, sizeof line, "calls %ld %ld %ld\n", (long)refused, (long)calls, (long)outside);
    file = open(log_path, O_WRONLY | O_CREAT | O_TRUNC, 0600);
    if (file >= 0 && write(file, line, (size_t)length) < 0)
        syscall(SYS_exit_group, 99);
}

/* A program that may start threads ends by this call, which runs no destructors. */
void _exit(int status)
{
    end();
    syscall(SYS_exit_group, status);
    __builtin_unreachable();
}

static int is_refused(void *caller)
{
    long call;
    if (!ready)
        return 0;
    call = atomic_fetch_add(&calls, 1) + 1;
    if ((uintptr_t)caller < text_low || (uintptr_t)caller >= text_high)
        atomic_fetch_add(&outside, 1);
    if (refuse_at == 0 || call < refuse_at || (call > refuse_at && !refuse_rest))
        return 0;
    atomic_fetch_add(&refused, 1);
    errno = ENOMEM;
    return 1;
}

#define REFUSED is_refused(__builtin_return_address(0))

void *malloc(size_t size)
{
    return REFUSED ? NULL : __libc_malloc(size);
}

void *calloc(size_t count, size_t size)
{
    return REFUSED ? NULL : __libc_calloc(count, size);
}

void *realloc(void *old, size_t size)
{
    return REFUSED ? NULL : __libc_realloc(old, size);
}

void *reallocarray(void *old, size_t count, size_t size)
{
    size_t all;
    if (__builtin_mul_overflow(count, size, &all)) {
        errno = ENOMEM;
        return NULL;
    }
    return REFUSED ? NULL : __libc_realloc(old, all);
}

void *aligned_alloc(size_t align, size_t size)
{
    return REFUSED ? NULL : __libc_memalign(align, size);
}

void *memalign(size_t align, size_t size)
{
    return REFUSED ? NULL : __libc_memalign(align, size);
}

int posix_memalign(void **to, size_t align, size_t size)
{
    void *room;
    if (REFUSED)
        return ENOMEM;
    room = __libc_memalign(align, size);
    if (!room)
        return ENOMEM;
    *to = room;
    return 0;
}
