/* A malloc that refuses one allocation of a program. It is loaded before the C library (LD_PRELOAD) and counts the
 * calls that the program's own file makes, not those within the C library. Variables of the environment:
 *
 *   REFUSE_NUMBER  which allocation is refused, counted from 1; none without it
 *   REFUSE_COUNT   a file of at least 8 bytes, whose first 8 keep how many were asked for, so that this is known
 *                  whichever way the program ends
 */
#define _GNU_SOURCE
#include <errno.h>
#include <fcntl.h>
#include <link.h>
#include <stdint.h>
#include <stdlib.h>
#include <sys/mman.h>
#include <unistd.h>

void *__libc_malloc(size_t bytes);
void *__libc_calloc(size_t count, size_t bytes);
void *__libc_realloc(void *memory, size_t bytes);
void *__libc_memalign(size_t alignment, size_t bytes);

static uint64_t unshared;
static uint64_t *asked = &unshared;
static uint64_t refused;
static uintptr_t program_begin, program_end;

/* The first object that the loader lists is the program. */
static int note_program(struct dl_phdr_info *object, size_t size, void *unused)
{
    (void)size, (void)unused;
    for (int i = 0; i < object->dlpi_phnum; i++) {
        const ElfW(Phdr) *part = &object->dlpi_phdr[i];
        if (part->p_type == PT_LOAD && (part->p_flags & PF_X)) {
            program_begin = object->dlpi_addr + part->p_vaddr;
            program_end = program_begin + part->p_memsz;
        }
    }
    return 1;
}

__attribute__((constructor)) static void begin(void)
{
    const char *number = getenv("REFUSE_NUMBER"), *file = getenv("REFUSE_COUNT");
    refused = number ? strtoull(number, NULL, 10) : 0;
    int kept = file ? open(file, O_RDWR) : -1;
    if (kept >= 0) {
        void *shared = mmap(NULL, sizeof *asked, PROT_READ | PROT_WRITE, MAP_SHARED, kept, 0);
        if (shared != MAP_FAILED)
            asked = shared;
        close(kept);
    }
    dl_iterate_phdr(note_program, NULL);
}

/* Whether this call, which returns to that address, is the one to refuse. */
static int is_refused(void *address)
{
    uintptr_t caller = (uintptr_t)address;
    if (caller < program_begin || caller >= program_end)
        return 0;
    if (__atomic_add_fetch(asked, 1, __ATOMIC_RELAXED) != refused)
        return 0;
    errno = ENOMEM;
    return 1;
}

#define OR_REFUSED(made) return is_refused(__builtin_return_address(0)) ? NULL : made

void *malloc(size_t bytes) { OR_REFUSED(__libc_malloc(bytes)); }
void *calloc(size_t count, size_t bytes) { OR_REFUSED(__libc_calloc(count, bytes)); }
void *realloc(void *memory, size_t bytes) { OR_REFUSED(__libc_realloc(memory, bytes)); }
void *aligned_alloc(size_t alignment, size_t bytes) { OR_REFUSED(__libc_memalign(alignment, bytes)); }

int posix_memalign(void **memory, size_t alignment, size_t bytes)
{
    if (is_refused(__builtin_return_address(0)))
        return ENOMEM;
    *memory = __libc_memalign(alignment, bytes);
    return *memory ? 0 : ENOMEM;
}
