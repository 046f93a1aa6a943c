/*
 * A host that refuses memory or output. tests/refusals and tests/failing_writes load it into the program by LD_PRELOAD.
 * It sees the calls of the program itself, not those that the C library makes for its own use.
 * Numbers in the environment say what to refuse. If a number is missing, nothing is refused.
 *
 *     HOST_LOG=FD       log each refused allocation, `refused BYTES`, and each write, `write FD TAKEN`, to this
 *                       descriptor; TAKEN is -1 if the write failed
 *     HOST_REFUSES=N    the Nth allocation fails
 *     HOST_AGAIN=1      so do those right after it, as long as each asks for less than the one before
 *     HOST_AGAIN=2      so do all after it
 *     HOST_FD=FD        the descriptor for the next numbers (default: 1)
 *     HOST_TAKES=K      a write takes at most K bytes
 *     HOST_FAILS=N      the Nth write fails
 *     HOST_ERROR=E      with this error number; if E is 0, the write returns 0
 */
#define _GNU_SOURCE
#include <errno.h>
#include <link.h>
#include <stdio.h>
#include <stdlib.h>
#include <sys/syscall.h>
#include <unistd.h>

extern void *__libc_malloc(size_t);
extern void *__libc_calloc(size_t, size_t);
extern void *__libc_realloc(void *, size_t);
extern void *__libc_memalign(size_t, size_t);

static ElfW(Addr) program_begin, program_end;
static long log_fd, refuses, again, fd, takes, fails, error;
static long allocations, refused_last, writes;
static size_t refused_bytes;

static long number(const char *name, long missing) {
    const char *text = getenv(name);
    return text ? strtol(text, NULL, 10) : missing;
}

/* The first object that the loader names is the program. */
static int find_program(struct dl_phdr_info *object, size_t size, void *unused) {
    (void)size, (void)unused;
    for (int i = 0; i < object->dlpi_phnum; i++) {
        const ElfW(Phdr) *part = &object->dlpi_phdr[i];
        ElfW(Addr) begin = object->dlpi_addr + part->p_vaddr, end = begin + part->p_memsz;
        if (part->p_type != PT_LOAD) continue;
        if (program_end == 0 || begin < program_begin) program_begin = begin;
        if (end > program_end) program_end = end;
    }
    return 1;
}

__attribute__((constructor)) static void begin(void) {
    log_fd = number("HOST_LOG", -1);
    refuses = number("HOST_REFUSES", 0);
    again = number("HOST_AGAIN", 0);
    fd = number("HOST_FD", 1);
    takes = number("HOST_TAKES", 0);
    fails = number("HOST_FAILS", 0);
    error = number("HOST_ERROR", 0);
    dl_iterate_phdr(find_program, NULL);
}

/* Returns true if a call with this return address comes from the program. Before `begin`, none does. */
static int is_of_program(void *address) {
    return (ElfW(Addr))address >= program_begin && (ElfW(Addr))address < program_end;
}

static void tell(const char *what, long first, long second) {
    char line[80];
    int length = snprintf(line, sizeof line, what, first, second);
    if (log_fd >= 0) syscall(SYS_write, log_fd, line, length);
}

/* Returns true if this allocation fails. */
static int is_refused(size_t bytes, void *caller) {
    if (!is_of_program(caller)) return 0;
    allocations++;
    int asks_for_less = refused_last == allocations - 1 && bytes < refused_bytes;
    int follows = refused_last > 0 && (again == 2 || (again == 1 && asks_for_less));
    if (allocations != refuses && !follows) return 0;
    refused_last = allocations;
    refused_bytes = bytes;
    tell("refused %ld\n", bytes, 0);
    errno = ENOMEM;
    return 1;
}

void *malloc(size_t bytes) {
    return is_refused(bytes, __builtin_return_address(0)) ? NULL : __libc_malloc(bytes);
}

void *calloc(size_t count, size_t bytes) {
    return is_refused(count * bytes, __builtin_return_address(0)) ? NULL : __libc_calloc(count, bytes);
}

void *realloc(void *old, size_t bytes) {
    return is_refused(bytes, __builtin_return_address(0)) ? NULL : __libc_realloc(old, bytes);
}

void *aligned_alloc(size_t alignment, size_t bytes) {
    return is_refused(bytes, __builtin_return_address(0)) ? NULL : __libc_memalign(alignment, bytes);
}

void *memalign(size_t alignment, size_t bytes) {
    return is_refused(bytes, __builtin_return_address(0)) ? NULL : __libc_memalign(alignment, bytes);
}

int posix_memalign(void **to, size_t alignment, size_t bytes) {
    if (is_refused(bytes, __builtin_return_address(0))) return ENOMEM;
    *to = __libc_memalign(alignment, bytes);
    return *to ? 0 : ENOMEM;
}

ssize_t write(int to, const void *bytes, size_t length) {
    if (to != fd || !is_of_program(__builtin_return_address(0))) return syscall(SYS_write, to, bytes, length);
    writes++;
    if (writes == fails) {
        tell("write %ld %ld\n", to, error == 0 ? 0 : -1);
        errno = error;
        return error == 0 ? 0 : -1;
    }
    if (takes > 0 && length > (size_t)takes) length = takes;
    ssize_t taken = syscall(SYS_write, to, bytes, length);
    tell("write %ld %ld\n", to, taken);
    return taken;
}
