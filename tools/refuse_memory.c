/* Stands before the C library (LD_PRELOAD), tells where a program asks for memory, and refuses it. tools/refuse_memory builds and uses it.

   A call's stack is the places in the program's text to which it returns, the innermost first, each as its address in the program's file, and
   each once: so a function that calls itself has as many stacks as it has ways to do so, and not as it has depths. The programs keep neither
   frame pointers nor tables of frames; so a table has to be given. Where another library asks, the first place is the last 12 bits of the one
   there, with bit 63 set. The programs have one thread.

   REFUSE_MEMORY_FRAMES  the table: two bytes for each address of the text, where no call returns to 0, else one more than the words that the
                         function has on the stack there, above which stands where it returns to; without it no stacks are told
   REFUSE_MEMORY_TELL    the file that is told `stack CALL SUM PLACE ..` of each stack where it comes first, with `?` behind it where an address
                         is unknown to the table; `refused CALL` of the call that is refused; and in the end `calls COUNT`. Calls count from 1
   REFUSE_MEMORY_STACK   the sum of a stack whose first call is refused
   REFUSE_MEMORY_CALL    the number of a call that is refused
   REFUSE_MEMORY_REST    where it is there, each call behind that one is refused too */
#define _GNU_SOURCE
#include <errno.h>
#include <fcntl.h>
#include <link.h>
#include <stdint.h>
#include <stdio.h>
#include <stdlib.h>
#include <sys/auxv.h>
#include <sys/mman.h>
#include <unistd.h>

enum { DEEPEST = 256, SLOTS = 1 << 18 };

extern void *__libc_malloc(size_t), *__libc_calloc(size_t, size_t), *__libc_realloc(void *, size_t), *__libc_stack_end;

/* The places of a stack, and whether all were found. */
struct stack {
    uintptr_t places[DEEPEST];
    int count, is_whole;
};

static uintptr_t start, text, text_end;
static const uint16_t *frames;
static uint64_t seen[SLOTS], wanted_stack;
static unsigned long calls, wanted_call;
static int tell = -1, is_with_rest, refuses_all;

static uint64_t number_of(const char *name, int base) {
    const char *word = getenv(name);
    return word ? strtoull(word, NULL, base) : 0;
}

__attribute__((constructor)) static void begin(void) {
    const ElfW(Phdr) *heads = (const ElfW(Phdr) *)getauxval(AT_PHDR);
    const char *table = getenv("REFUSE_MEMORY_FRAMES"), *told = getenv("REFUSE_MEMORY_TELL");
    size_t size = 0;
    if (!told) return;
    for (unsigned long i = 0; i < getauxval(AT_PHNUM); i++) {
        if (heads[i].p_type == PT_PHDR) start = (uintptr_t)heads - heads[i].p_vaddr;
        if (heads[i].p_type == PT_LOAD && heads[i].p_flags & PF_X) text = heads[i].p_vaddr, size = heads[i].p_memsz;
    }
    int file = table ? open(table, O_RDONLY | O_CLOEXEC) : -1;
    frames = table ? mmap(NULL, 2 * size, PROT_READ, MAP_SHARED, file, 0) : NULL;
    tell = open(told, O_WRONLY | O_CREAT | O_TRUNC | O_CLOEXEC, 0600);
    if (frames == MAP_FAILED || tell < 0) _exit(99);
    if (table) close(file);
    wanted_stack = number_of("REFUSE_MEMORY_STACK", 16);
    wanted_call = number_of("REFUSE_MEMORY_CALL", 10);
    is_with_rest = getenv("REFUSE_MEMORY_REST") != NULL;
    text_end = text + size;
}

static void tell_bytes(const char *line, int length) {
    if (write(tell, line, length) != length) _exit(99);
}

static void tell_call(const char *what) {
    char line[64];
    tell_bytes(line, sprintf(line, "%s %lu\n", what, calls));
}

__attribute__((destructor)) static void end(void) {
    if (text_end) tell_call("calls");
}

static void add(struct stack *it, uintptr_t place) {
    for (int i = 0; i < it->count; i++)
        if (it->places[i] == place) return;
    if (it->count < DEEPEST) it->places[it->count++] = place;
}

/* Whether an address stands here to which a call in the text returns. */
static int is_return(const uintptr_t *at) { return *at - start >= text && *at - start < text_end && frames[*at - start - text]; }

/* Adds the places from the one on whose address stands here, up to where the text is left; whether all of them were found. */
static int climb(struct stack *it, const uintptr_t *at) {
    while (at < (const uintptr_t *)__libc_stack_end && is_return(at)) {
        add(it, *at - start);
        at += frames[*at - start - text];
    }
    return at < (const uintptr_t *)__libc_stack_end && (*at - start < text || *at - start >= text_end);
}

/* The stack of the call whose address to return to stands here. Of another library's own frames nothing is known. */
static void find_stack(struct stack *it, const uintptr_t *at) {
    it->count = it->is_whole = 0;
    if (*at - start < text || *at - start >= text_end) add(it, (*at & 4095) | (uintptr_t)1 << 63);
    for (int first = it->count; at < (const uintptr_t *)__libc_stack_end; at++) {
        it->count = first;
        if (!first || is_return(at)) it->is_whole = climb(it, at);
        if (!first || it->is_whole) return;
    }
}

static uint64_t sum_of(const struct stack *it) {
    uint64_t sum = 0xcbf29ce484222325;
    for (int i = 0; i < it->count; i++) sum = (sum ^ it->places[i] ^ sum >> 29) * 0x100000001b3;
    return sum ? sum : 1;
}

/* Whether a stack is met for the first time. Where there are too many it is told again. */
static int is_new(uint64_t sum) {
    for (unsigned i = 0; i < SLOTS; i++) {
        uint64_t *slot = &seen[(sum + i) % SLOTS];
        if (*slot == sum) return 0;
        if (!*slot) return *slot = sum, 1;
    }
    return 1;
}

static void tell_stack(uint64_t sum, const struct stack *it) {
    static char line[64 + 17 * DEEPEST];
    int length = sprintf(line, "stack %lu %lx", calls, (unsigned long)sum);
    for (int i = 0; i < it->count; i++) length += sprintf(line + length, " %lx", (unsigned long)it->places[i]);
    tell_bytes(line, length + sprintf(line + length, it->is_whole ? "\n" : " ?\n"));
}

/* Whether the stack of this call is the one whose first call is refused, and this is the first. */
static int is_at_stack(const uintptr_t *at) {
    struct stack it;
    find_stack(&it, at);
    uint64_t sum = sum_of(&it);
    if (!is_new(sum)) return 0;
    if (!wanted_stack && !wanted_call) tell_stack(sum, &it);
    return sum == wanted_stack;
}

/* Whether a call gets no memory, by where the address that it returns to stands. */
static int refuses(const uintptr_t *at) {
    if (!text_end) return 0;
    calls++;
    int before = errno, is_wanted = (frames && is_at_stack(at)) || calls == wanted_call;
    if (is_wanted) tell_call("refused");
    refuses_all |= is_wanted && is_with_rest;
    errno = is_wanted || refuses_all ? ENOMEM : before;
    return is_wanted || refuses_all;
}

#define HERE ((const uintptr_t *)__builtin_frame_address(0) + 1)

void *malloc(size_t size) { return refuses(HERE) ? NULL : __libc_malloc(size); }

void *calloc(size_t count, size_t size) { return refuses(HERE) ? NULL : __libc_calloc(count, size); }

void *realloc(void *block, size_t size) { return refuses(HERE) ? NULL : __libc_realloc(block, size); }
