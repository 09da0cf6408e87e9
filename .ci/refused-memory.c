// Preloaded into a program, refuses one of its allocations (.ci/refused-memory). A line of standard output that begins with "# " says
// that a call is tried until the next line comes. The variable REFUSED has the place, from 1, of the one that is refused among all
// that the program makes by malloc and realloc while calls are tried. Standard error gets the address of the program's entry and
// words of the stack, up from the frame of the refused call. At 0, where none is refused, it gets the lines that say what is tried,
// with a full stop for each allocation behind them. No header is read, so that the toolchain's clang suffices.

void *__libc_malloc(unsigned long size);
void *__libc_realloc(void *block, unsigned long size);
char *getenv(const char *name);
unsigned long getauxval(unsigned long type);
long atol(const char *digits);
long __write(int file, const void *bytes, unsigned long count);

enum { OUTPUT = 1, ERROR = 2, ENTRY = 9, PIECE = 512, PIECES = 32 };

static int is_tried;

static long place(void) {
    const char *given = getenv("REFUSED");
    return given ? atol(given) : 0;
}

// A write past the end of the stack fails, and ends the telling.
static void tell(const char *frame) {
    unsigned long entry = getauxval(ENTRY);
    __write(ERROR, &entry, sizeof entry);
    for (int piece = 0; piece < PIECES; piece++)
        if (__write(ERROR, frame + PIECE * piece, PIECE) != PIECE)
            return;
}

static int is_refused(const char *frame) {
    static long made;
    if (!is_tried)
        return 0;
    long this_one = __atomic_add_fetch(&made, 1, __ATOMIC_SEQ_CST);
    if (place() == 0)
        __write(ERROR, ".", 1);
    if (place() != this_one)
        return 0;
    tell(frame);
    return 1;
}

void *malloc(unsigned long size) {
    return is_refused(__builtin_frame_address(0)) ? 0 : __libc_malloc(size);
}

void *realloc(void *block, unsigned long size) {
    return is_refused(__builtin_frame_address(0)) ? 0 : __libc_realloc(block, size);
}

long write(int file, const void *bytes, unsigned long count) {
    const char *text = bytes;
    if (file == OUTPUT)
        is_tried = count > 1 && text[0] == '#' && text[1] == ' ';
    if (file == OUTPUT && is_tried && place() == 0)
        __write(ERROR, bytes, count);
    return __write(file, bytes, count);
}
