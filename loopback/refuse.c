/* Loaded before the C library, it refuses memory to a program, or the sending of octets. It counts what the program itself asks for (malloc, calloc, realloc, posix_memalign,
 * aligned_alloc), and not what libraries do. By the environment: REFUSE_AT=N refuses the request number N (from 1), and with REFUSE_ALL=1 each one behind it too; REFUSE_COUNTS=FILE,
 * a file of 16 octets, is told how many were asked for and how many refused; REFUSE_SENDS=1 has each send take nothing. */
#define _GNU_SOURCE
#include <errno.h>
#include <fcntl.h>
#include <link.h>
#include <stdatomic.h>
#include <stdint.h>
#include <stdlib.h>
#include <sys/mman.h>
#include <sys/socket.h>
#include <sys/syscall.h>
#include <unistd.h>

extern void *__libc_malloc(size_t), *__libc_calloc(size_t, size_t), *__libc_realloc(void *, size_t), *__libc_memalign(size_t, size_t);

struct counts { _Atomic uint64_t asked, refused; };
static struct counts none, *counts = &none;
static uintptr_t begin, end;
static uint64_t refuse_at;
static int refuse_all, refuse_sends;

/* Where the program's own code stands: the first object of the list is the program. */
static int first_object(struct dl_phdr_info *it, size_t size, void *unused) {
    (void)size; (void)unused;
    for (int i = 0; i < it->dlpi_phnum; i++)
        if (it->dlpi_phdr[i].p_type == PT_LOAD && it->dlpi_phdr[i].p_flags & PF_X) {
            begin = it->dlpi_addr + it->dlpi_phdr[i].p_vaddr;
            end = begin + it->dlpi_phdr[i].p_memsz;
        }
    return 1;
}

__attribute__((constructor)) static void read_environment(void) {
    const char *at = getenv("REFUSE_AT"), *file = getenv("REFUSE_COUNTS");
    refuse_all = getenv("REFUSE_ALL") != NULL;
    refuse_sends = getenv("REFUSE_SENDS") != NULL;
    int fd = file ? open(file, O_RDWR) : -1;
    if (fd >= 0) {
        void *page = mmap(NULL, sizeof *counts, PROT_READ | PROT_WRITE, MAP_SHARED, fd, 0);
        if (page != MAP_FAILED) counts = page;
        close(fd);
    }
    dl_iterate_phdr(first_object, NULL);
    refuse_at = at ? strtoull(at, NULL, 10) : 0;
}

/* Whether a request of this caller is refused; it is counted. */
static int is_refused(void *caller) {
    if ((uintptr_t)caller < begin || (uintptr_t)caller >= end) return 0;
    uint64_t number = atomic_fetch_add(&counts->asked, 1) + 1;
    if (refuse_at == 0 || number < refuse_at || (number > refuse_at && !refuse_all)) return 0;
    atomic_fetch_add(&counts->refused, 1);
    errno = ENOMEM;
    return 1;
}

#define REFUSED is_refused(__builtin_return_address(0))

void *malloc(size_t size) { return REFUSED ? NULL : __libc_malloc(size); }
void *calloc(size_t count, size_t size) { return REFUSED ? NULL : __libc_calloc(count, size); }
void *realloc(void *old, size_t size) { return REFUSED ? NULL : __libc_realloc(old, size); }
void *aligned_alloc(size_t align, size_t size) { return REFUSED ? NULL : __libc_memalign(align, size); }

int posix_memalign(void **place, size_t align, size_t size) {
    if (REFUSED) return ENOMEM;
    void *it = __libc_memalign(align, size);
    if (!it) return ENOMEM;
    *place = it;
    return 0;
}

ssize_t send(int fd, const void *octets, size_t count, int flags) {
    if (refuse_sends) { errno = EAGAIN; return -1; }
    return syscall(SYS_sendto, fd, octets, count, flags, NULL, 0);
}
