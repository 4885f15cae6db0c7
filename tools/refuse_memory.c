/* A library for LD_PRELOAD, which counts a program's requests for memory and refuses one of them,
   once. tools/refuse-memory builds it, and sets these variables:

       REFUSE_MEMORY_COUNTS    the file that has the counts below, as a struct counts. It is mapped,
                               so that what stands in it is true also where the program is killed
       REFUSE_MEMORY_WHOSE     `program` or `library`: of whose requests one is refused
       REFUSE_MEMORY_AT        which of these, from 1; 0 is none
       REFUSE_MEMORY_MOMENT    what the real-time clock says in all of the run: seconds since 1970

   A request is the program's where its call returns into the program's own code, and else the
   library's: the C library asks for itself, as when it makes a thread. What is asked for before
   this library is set up is the dynamic linker's, and not counted. */
#define _GNU_SOURCE
#include <errno.h>
#include <fcntl.h>
#include <link.h>
#include <stdatomic.h>
#include <stdint.h>
#include <stdlib.h>
#include <string.h>
#include <sys/mman.h>
#include <sys/syscall.h>
#include <time.h>
#include <unistd.h>

/* The GNU C library's own functions, behind the names that are taken here. */
void *__libc_malloc(size_t size);
void *__libc_calloc(size_t count, size_t size);
void *__libc_realloc(void *block, size_t size);
void *__libc_memalign(size_t alignment, size_t size);

enum { PROGRAM, LIBRARY };

struct counts {
    _Atomic uint64_t made[2]; /* requests of the program and of the library */
    _Atomic uint64_t refused; /* 1 once one was refused */
    _Atomic uint64_t place;   /* where in the program's file, or in memory, its call returns to */
};

static struct counts *counts;
static uintptr_t begin, code_begin, code_end; /* of the program in memory, and of its code */
static int refused_one;
static uint64_t refused_at;
static time_t moment = -1;

/* The first object that is told is the program. */
static int find_program(struct dl_phdr_info *object, size_t size, void *given) {
    (void)size, (void)given;
    begin = object->dlpi_addr;
    for (int i = 0; i < object->dlpi_phnum; i++) {
        const ElfW(Phdr) *part = &object->dlpi_phdr[i];
        if (part->p_type != PT_LOAD || !(part->p_flags & PF_X)) continue;
        code_begin = begin + part->p_vaddr;
        code_end = code_begin + part->p_memsz;
    }
    return 1;
}

static uint64_t number_in(const char *name) {
    const char *text = getenv(name);
    return text ? strtoull(text, NULL, 10) : 0;
}

__attribute__((constructor)) static void set_up(void) {
    const char *path = getenv("REFUSE_MEMORY_COUNTS"), *whose = getenv("REFUSE_MEMORY_WHOSE");
    if (!path || !whose) return;
    int file = open(path, O_RDWR | O_CLOEXEC);
    void *map = mmap(NULL, sizeof *counts, PROT_READ | PROT_WRITE, MAP_SHARED, file, 0);
    close(file);
    if (map == MAP_FAILED) abort();
    dl_iterate_phdr(find_program, NULL);
    refused_one = strcmp(whose, "program") ? LIBRARY : PROGRAM;
    refused_at = number_in("REFUSE_MEMORY_AT");
    if (getenv("REFUSE_MEMORY_MOMENT")) moment = (time_t)number_in("REFUSE_MEMORY_MOMENT");
    counts = map;
}

/* Counts a request whose call returns to that place, and says whether it is to be refused. */
static int is_refused(void *place) {
    if (!counts) return 0;
    uintptr_t at = (uintptr_t)place;
    int own = code_begin <= at && at < code_end, who = own ? PROGRAM : LIBRARY;
    if (atomic_fetch_add(&counts->made[who], 1) + 1 != refused_at || who != refused_one) return 0;
    counts->place = own ? at - begin : at;
    counts->refused = 1;
    errno = ENOMEM;
    return 1;
}

#define REFUSED is_refused(__builtin_return_address(0))

void *malloc(size_t size) {
    return REFUSED ? NULL : __libc_malloc(size);
}

void *calloc(size_t count, size_t size) {
    return REFUSED ? NULL : __libc_calloc(count, size);
}

void *realloc(void *block, size_t size) {
    return REFUSED ? NULL : __libc_realloc(block, size);
}

void *memalign(size_t alignment, size_t size) {
    return REFUSED ? NULL : __libc_memalign(alignment, size);
}

void *aligned_alloc(size_t alignment, size_t size) {
    return REFUSED ? NULL : __libc_memalign(alignment, size);
}

int posix_memalign(void **block, size_t alignment, size_t size) {
    void *got = REFUSED ? NULL : __libc_memalign(alignment, size);
    if (got) *block = got;
    return got ? 0 : ENOMEM;
}

int clock_gettime(clockid_t clock, struct timespec *now) {
    int status = (int)syscall(SYS_clock_gettime, clock, now);
    if (status == 0 && clock == CLOCK_REALTIME && moment >= 0) {
        now->tv_sec = moment;
        now->tv_nsec = 0;
    }
    return status;
}
