// Preloaded into a program, sums the bytes that it has by malloc, calloc and realloc, and refuses what would take the sum above those that the
// variable MOST names (.ci/claimed-counts). The file that SUMS names has the sums, while the program runs and after it. No header is read, so
// that the toolchain's clang suffices.

void *__libc_malloc(unsigned long size);
void *__libc_calloc(unsigned long count, unsigned long size);
void *__libc_realloc(void *block, unsigned long size);
void __libc_free(void *block);
unsigned long malloc_usable_size(void *block);
char *getenv(const char *name);
long atol(const char *digits);
int open(const char *path, int flags, ...);
int close(int file);
void *mmap(void *at, unsigned long size, int rights, int flags, int file, long from);

enum { READ_AND_WRITE = 2, MAY_READ_AND_WRITE = 3, SHARED = 1 };

struct sums {
    unsigned long held;     // the bytes that the program has
    unsigned long most;     // the most that it had at once
    unsigned long greatest; // those of the greatest block that it asked for
    unsigned long refused;  // how many blocks it was refused
};

// What is summed before the file is there; until then nothing is refused.
static struct sums early, *sums = &early;
static unsigned long limit = -1UL;

__attribute__((constructor)) static void begin(void) {
    const char *path = getenv("SUMS"), *most = getenv("MOST");
    int file = path ? open(path, READ_AND_WRITE) : -1;
    if (file < 0)
        return;
    struct sums *shared = mmap(0, sizeof early, MAY_READ_AND_WRITE, SHARED, file, 0);
    close(file);
    if (shared == (void *)-1)
        return;
    *shared = early;
    sums = shared;
    limit = most ? (unsigned long)atol(most) : limit;
}

static void raise_to(unsigned long *most, unsigned long value) {
    unsigned long seen = __atomic_load_n(most, __ATOMIC_SEQ_CST);
    while (value > seen && !__atomic_compare_exchange_n(most, &seen, value, 0, __ATOMIC_SEQ_CST, __ATOMIC_SEQ_CST))
        ;
}

static unsigned long size_of(void *block) {
    return block ? malloc_usable_size(block) : 0;
}

// Whether the program may have a block of that size in the place of one of so many bytes.
static int may_have(unsigned long size, unsigned long before) {
    unsigned long others = __atomic_load_n(&sums->held, __ATOMIC_SEQ_CST) - before;
    raise_to(&sums->greatest, size);
    if (others <= limit && size <= limit - others)
        return 1;
    __atomic_add_fetch(&sums->refused, 1, __ATOMIC_SEQ_CST);
    return 0;
}

// Counts a block in the place of one of so many bytes.
static void *counted(void *block, unsigned long before) {
    raise_to(&sums->most, __atomic_add_fetch(&sums->held, size_of(block) - before, __ATOMIC_SEQ_CST));
    return block;
}

void *malloc(unsigned long size) {
    return may_have(size, 0) ? counted(__libc_malloc(size), 0) : 0;
}

void *calloc(unsigned long count, unsigned long size) {
    unsigned long both;
    if (__builtin_mul_overflow(count, size, &both) || !may_have(both, 0))
        return 0;
    return counted(__libc_calloc(count, size), 0);
}

void *realloc(void *block, unsigned long size) {
    unsigned long before = size_of(block);
    if (!may_have(size, before))
        return 0;
    void *made = __libc_realloc(block, size);
    return made || size == 0 ? counted(made, before) : 0;
}

void free(void *block) {
    __atomic_sub_fetch(&sums->held, size_of(block), __ATOMIC_SEQ_CST);
    __libc_free(block);
}
