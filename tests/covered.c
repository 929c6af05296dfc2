// Loaded before the C library, it tells which blocks of a program a run reaches, of the program as it was built: at each place
// that the file BLOCKS names, 4 bytes each in the machine's order, it puts a trap, and where a trap is met it writes the place
// into the file REACHED, behind the number of those before, puts back what stood there and goes on.
#define _GNU_SOURCE
#include <fcntl.h>
#include <link.h>
#include <signal.h>
#include <stdint.h>
#include <stdlib.h>
#include <string.h>
#include <sys/mman.h>
#include <sys/stat.h>
#include <ucontext.h>
#include <unistd.h>

static uint8_t *text, *was;
static uintptr_t base, start, end;
static uint32_t *reached, room;

static int look(struct dl_phdr_info *info, size_t size, void *given) {
    (void)size, (void)given;
    base = info->dlpi_addr;
    for (int k = 0; k < info->dlpi_phnum; k++) {
        const ElfW(Phdr) *part = &info->dlpi_phdr[k];
        if (part->p_type == PT_LOAD && part->p_flags & PF_X) {
            start = base + part->p_vaddr;
            end = start + part->p_memsz;
        }
    }
    return 1; // the first is the program
}

static void trapped(int number, siginfo_t *info, void *given) {
    (void)info;
    greg_t *at = &((ucontext_t *)given)->uc_mcontext.gregs[REG_RIP];
    uintptr_t place = (uintptr_t)*at - 1;
    if (place < start || place >= end || *(uint8_t *)place != 0xcc) {
        signal(number, SIG_DFL); // a trap of the program's own
        return;
    }
    *(uint8_t *)place = was[place - start];
    *at = (greg_t)place;
    if (reached[0] + 1 < room) {
        reached[++reached[0]] = (uint32_t)(place - base);
    }
}

static void *mapped(const char *name, int flags, size_t *size) {
    struct stat found;
    int file = name ? open(name, flags & PROT_WRITE ? O_RDWR : O_RDONLY) : -1;
    if (file < 0 || fstat(file, &found) || found.st_size == 0) {
        return NULL;
    }
    *size = (size_t)found.st_size;
    void *out = mmap(NULL, *size, flags, MAP_SHARED, file, 0);
    close(file);
    return out == MAP_FAILED ? NULL : out;
}

__attribute__((constructor)) static void begin(void) {
    size_t size = 0, count = 0;
    const uint32_t *blocks = mapped(getenv("BLOCKS"), PROT_READ, &count);
    reached = mapped(getenv("REACHED"), PROT_READ | PROT_WRITE, &size);
    if (!blocks || !reached) {
        return;
    }
    room = (uint32_t)(size / 4);
    dl_iterate_phdr(look, NULL);
    text = (uint8_t *)(start & ~(uintptr_t)4095);
    size_t length = (size_t)(end - (uintptr_t)text);
    was = malloc(end - start);
    struct sigaction action = {.sa_sigaction = trapped, .sa_flags = SA_SIGINFO | SA_NODEFER};
    if (!was || mprotect(text, length, PROT_READ | PROT_WRITE | PROT_EXEC) || sigaction(SIGTRAP, &action, NULL)) {
        _exit(99);
    }
    memcpy(was, (void *)start, end - start);
    for (size_t k = 0; k < count / 4; k++) {
        *(uint8_t *)(base + blocks[k]) = 0xcc;
    }
}
