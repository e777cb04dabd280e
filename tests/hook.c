/* Loaded before the C library (LD_PRELOAD), refuses one call of the program: REFUSE names what is counted, REFUSED the number of the
   call that fails, from 0. PIECE, where it is given, is the most bytes that a read or a write takes at a time. NOTED, where it is given,
   is a file to which each open, read and write is noted in a line, with the number of its file and what it gave. It needs no header, so
   any C compiler will do. */
extern char *getenv(const char *name);
extern int strcmp(const char *one, const char *other);
extern long strtol(const char *text, char **end, int base);
extern int dprintf(int file, const char *format, ...);
extern void *__libc_malloc(unsigned long size);
extern void *__libc_realloc(void *old, unsigned long size);
extern long syscall(long number, ...);
extern int *__errno_location(void);

enum { HERE = -100, READ = 0, WRITE = 1, CLOSE = 3, FCNTL = 72, OPENAT = 257 };

static int on_memory, on_read, on_write;
static long left = -1;
static unsigned long piece = -1;
static int notes = -1;

/* The notes have a high number, so that those of the program's files are what they would be. */
static int noted(const char *name) {
    const long appended = 02101, copied = 0, at_least = 500;
    long file = syscall(OPENAT, (long)HERE, name, appended, 0600L), high = syscall(FCNTL, file, copied, at_least);
    syscall(CLOSE, file);
    return high;
}

__attribute__((constructor)) static void begin(void) {
    const char *what = getenv("REFUSE");
    const char *number = getenv("REFUSED");
    const char *size = getenv("PIECE");
    const char *name = getenv("NOTED");
    if (size) piece = strtol(size, 0, 10);
    if (name) notes = noted(name);
    if (!what || !number) return;
    on_memory = !strcmp(what, "memory");
    on_read = !strcmp(what, "read");
    on_write = !strcmp(what, "write");
    left = strtol(number, 0, 10);
}

static int refused(int counted) {
    return counted && left-- == 0;
}

void *malloc(unsigned long size) {
    return refused(on_memory) ? 0 : __libc_malloc(size);
}

void *realloc(void *old, unsigned long size) {
    return refused(on_memory) ? 0 : __libc_realloc(old, size);
}

static unsigned long taken(unsigned long most) {
    return most < piece ? most : piece;
}

static long noted_as(const char *what, long file, long given) {
    if (notes >= 0) dprintf(notes, "%s %ld %ld\n", what, file, given);
    return given;
}

static long failed(void) {
    *__errno_location() = 5;
    return -1;
}

static int opened(const char *name, int how) {
    long file = syscall(OPENAT, (long)HERE, name, (long)how, 0L);
    if (notes >= 0) dprintf(notes, "open %ld %s\n", file, name);
    return file;
}

int open(const char *name, int how, ...) {
    return opened(name, how);
}

int open64(const char *name, int how, ...) {
    return opened(name, how);
}

long read(int file, void *bytes, unsigned long most) {
    return noted_as("read", file, refused(on_read) ? failed() : syscall(READ, (long)file, bytes, taken(most)));
}

long write(int file, const void *bytes, unsigned long most) {
    return noted_as("write", file, file == 1 && refused(on_write) ? failed() : syscall(WRITE, (long)file, bytes, taken(most)));
}
