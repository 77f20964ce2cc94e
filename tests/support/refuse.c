// Refuses one growth of memory, or one start of a thread, to the program that it is loaded into.
//
// REFUSE_GROWTH=N refuses the Nth growth that the program itself asks for, counted from 1, and REFUSE_THREAD=N the
// Nth thread. What the C library asks for of its own accord is not counted. A byte written to descriptor 99 tells that
// something was refused. Built and loaded by tests/refused-memory.

#define TELLS 99
#define OUT_OF_MEMORY 12
#define TRY_AGAIN 11
#define PROGRAM_HEADERS 3
#define PROGRAM_HEADER_COUNT 5
#define LOADED_PART 1
#define HEADERS_PART 6
#define NEXT_LIBRARY ((void *)-1L)

typedef unsigned long word;

struct part {
    unsigned kind, flags;
    word offset, address, physical, file_size, size, alignment;
};

void *__libc_malloc(word size);
void *__libc_calloc(word count, word size);
void *__libc_realloc(void *old, word size);
void *__libc_memalign(word alignment, word size);
int *__errno_location(void);
char *getenv(const char *name);
long atol(const char *text);
word getauxval(word kind);
long write(int descriptor, const void *bytes, word count);
void *dlsym(void *library, const char *name);

static long growths, threads;
static word program_start, program_end;

__attribute__((constructor)) static void read_orders(void) {
    const char *growth = getenv("REFUSE_GROWTH"), *thread = getenv("REFUSE_THREAD");
    const struct part *parts = (const struct part *)getauxval(PROGRAM_HEADERS);
    word count = getauxval(PROGRAM_HEADER_COUNT), base = 0;
    for (word i = 0; i < count; i++)
        if (parts[i].kind == HEADERS_PART) base = (word)parts - parts[i].address;
    program_start = base;
    for (word i = 0; i < count; i++)
        if (parts[i].kind == LOADED_PART) program_end = base + parts[i].address + parts[i].size;
    growths = growth ? atol(growth) : 0;
    threads = thread ? atol(thread) : 0;
}

// Whether this is the one that is refused.
static int is_the_one(long *left) {
    if (__atomic_load_n(left, __ATOMIC_SEQ_CST) <= 0 || __atomic_sub_fetch(left, 1, __ATOMIC_SEQ_CST) != 0) return 0;
    write(TELLS, "!", 1);
    return 1;
}

static int refuses(word caller) {
    if (caller < program_start || caller >= program_end || !is_the_one(&growths)) return 0;
    *__errno_location() = OUT_OF_MEMORY;
    return 1;
}

#define CALLER ((word)__builtin_return_address(0))

void *malloc(word size) { return refuses(CALLER) ? 0 : __libc_malloc(size); }

void *calloc(word count, word size) { return refuses(CALLER) ? 0 : __libc_calloc(count, size); }

void *realloc(void *old, word size) { return refuses(CALLER) ? 0 : __libc_realloc(old, size); }

void *aligned_alloc(word alignment, word size) { return refuses(CALLER) ? 0 : __libc_memalign(alignment, size); }

int posix_memalign(void **place, word alignment, word size) {
    if (refuses(CALLER)) return OUT_OF_MEMORY;
    void *memory = __libc_memalign(alignment, size);
    if (!memory) return OUT_OF_MEMORY;
    *place = memory;
    return 0;
}

int pthread_create(void *thread, const void *attributes, void *(*start)(void *), void *argument) {
    static int (*create)(void *, const void *, void *(*)(void *), void *);
    if (is_the_one(&threads)) return TRY_AGAIN;
    if (!create) create = dlsym(NEXT_LIBRARY, "pthread_create");
    return create(thread, attributes, start, argument);
}
