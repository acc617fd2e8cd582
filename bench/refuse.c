// Loaded before the C library by bench/refuse.py: counts the requests for memory that the program itself makes, refuses the
// one whose number REFUSE_NUMBER gives, and at the end of the program writes to the file REFUSE_REPORT: how many requests
// there were, how many of them were refused, and how many blocks were taken and not given back.
//
// Requests of the C library and of the loader aren't the program's: they are told apart by the address that a call returns to.

#define _GNU_SOURCE
#include <errno.h>
#include <fcntl.h>
#include <link.h>
#include <stdint.h>
#include <stdio.h>
#include <stdlib.h>
#include <unistd.h>

extern void *__libc_malloc(size_t size);
extern void *__libc_realloc(void *block, size_t size);
extern void __libc_free(void *block);

static uintptr_t first, past;
static unsigned long number, requests, refused;
static long kept;

// Whether a call comes from the program.
#define IS_OWN ((uintptr_t)__builtin_return_address(0) - first < past - first)

// Where the program lies: it is the first object of which the loader tells.
static int find_program(struct dl_phdr_info *info, size_t size, void *data)
{
    (void)size, (void)data;
    first = UINTPTR_MAX;
    for (int i = 0; i < info->dlpi_phnum; i++) {
        const ElfW(Phdr) *part = &info->dlpi_phdr[i];
        uintptr_t begin = info->dlpi_addr + part->p_vaddr;
        if (part->p_type == PT_LOAD && begin < first)
            first = begin;
        if (part->p_type == PT_LOAD && begin + part->p_memsz > past)
            past = begin + part->p_memsz;
    }
    return 1;
}

__attribute__((constructor)) static void begin(void)
{
    const char *word = getenv("REFUSE_NUMBER");
    number = word ? strtoul(word, NULL, 10) : 0;
    dl_iterate_phdr(find_program, NULL);
}

__attribute__((destructor)) static void report(void)
{
    char line[100];
    const char *name = getenv("REFUSE_REPORT");
    int length = snprintf(line, sizeof line, "%lu %lu %ld\n", requests, refused, kept);
    int file = name ? open(name, O_WRONLY | O_CREAT | O_TRUNC | O_CLOEXEC, 0644) : -1;
    if (file < 0 || write(file, line, length) != length)
        abort();
    close(file);
}

// Counts a request of the program; whether it is the one to be refused.
static int is_refused(void)
{
    requests++;
    if (requests != number)
        return 0;
    refused++;
    errno = ENOMEM;
    return 1;
}

void *malloc(size_t size)
{
    if (!IS_OWN)
        return __libc_malloc(size);
    if (is_refused())
        return NULL;
    void *block = __libc_malloc(size);
    kept += block != NULL;
    return block;
}

void *realloc(void *block, size_t size)
{
    if (!IS_OWN)
        return __libc_realloc(block, size);
    if (is_refused())
        return NULL;
    void *moved = __libc_realloc(block, size);
    kept += block == NULL && moved != NULL;
    return moved;
}

void free(void *block)
{
    kept -= IS_OWN && block != NULL;
    __libc_free(block);
}
