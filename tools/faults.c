// What tools/faults.py puts before the C library of a run: calls fail, move one byte, or end the process, at the number told.
// An environment variable NAME=N means the Nth call of its kind, from 1, and NAME=N.. that and each later one.
extern void *__libc_malloc(unsigned long), *__libc_realloc(void *, unsigned long);
extern long syscall(long, ...);
extern char *getenv(const char *);
extern unsigned long strtoul(const char *, char **, int);
extern int dprintf(int, const char *, ...), getpid(void), *__errno_location(void);

enum { FAIL_ALLOC, FAIL_IO, SHORT_IO, KILL_IO, FULL_DISK, TORN_WRITE, KINDS };
static const char *const NAMES[KINDS] = {"FAIL_ALLOC", "FAIL_IO", "SHORT_IO", "KILL_IO", "FULL_DISK", "TORN_WRITE"};
static unsigned long calls[KINDS], first[KINDS], last[KINDS];
enum { READ = 0, WRITE = 1, PREAD = 17, PWRITE = 18, KILL = 62, FSYNC = 74, FDATASYNC = 75, FTRUNCATE = 77, EXIT_GROUP = 231 };
enum { EIO = 5, ENOMEM = 12, ENOSPC = 28 };

__attribute__((constructor)) static void begin(void) {
    for (int kind = 0; kind < KINDS; kind++) {
        char *end, *told = getenv(NAMES[kind]);
        if (!told) continue;
        first[kind] = strtoul(told, &end, 10);
        last[kind] = *end ? -1ul : first[kind];
    }
}

// How many calls of each kind there were goes to the file descriptor CALLS_TO.
__attribute__((destructor)) static void end(void) {
    char *to = getenv("CALLS_TO");
    for (int kind = 0; to && kind < KINDS; kind++) dprintf(strtoul(to, 0, 10), "%s %lu\n", NAMES[kind], calls[kind]);
}

// A program that may start threads ends here, and runs no destructor.
__attribute__((noreturn)) void _exit(int status) {
    end();
    for (;;) syscall(EXIT_GROUP, status);
}
__attribute__((noreturn)) void _Exit(int status) { _exit(status); }

static int hits(int kind) {
    unsigned long number = __atomic_add_fetch(&calls[kind], 1, __ATOMIC_RELAXED); // several threads call
    return first[kind] <= number && number <= last[kind];
}
static long fails(int why) { *__errno_location() = why; return -1; }
static void die(void) { syscall(KILL, getpid(), 9); }
static unsigned long shorter(unsigned long size) { return size > 1 && hits(SHORT_IO) ? 1 : size; }

static long get(long call, int fd, void *to, unsigned long size, long at) {
    if (hits(KILL_IO)) die();
    return hits(FAIL_IO) ? fails(EIO) : syscall(call, fd, to, shorter(size), at);
}
static long put(long call, int fd, const void *of, unsigned long size, long at) {
    if (hits(KILL_IO)) die();
    if (hits(TORN_WRITE)) { syscall(call, fd, of, size / 2, at); die(); }
    return hits(FAIL_IO) | hits(FULL_DISK) ? fails(ENOSPC) : syscall(call, fd, of, shorter(size), at);
}
static int keep(long call, int fd, long size) {
    if (hits(KILL_IO)) die();
    return hits(FAIL_IO) ? fails(EIO) : syscall(call, fd, size);
}

void *malloc(unsigned long size) { return hits(FAIL_ALLOC) ? (fails(ENOMEM), (void *)0) : __libc_malloc(size); }
void *realloc(void *old, unsigned long size) { return hits(FAIL_ALLOC) ? (fails(ENOMEM), (void *)0) : __libc_realloc(old, size); }
long read(int fd, void *to, unsigned long size) { return get(READ, fd, to, size, 0); }
long pread(int fd, void *to, unsigned long size, long at) { return get(PREAD, fd, to, size, at); }
long write(int fd, const void *of, unsigned long size) { return put(WRITE, fd, of, size, 0); }
long pwrite(int fd, const void *of, unsigned long size, long at) { return put(PWRITE, fd, of, size, at); }
int fsync(int fd) { return keep(FSYNC, fd, 0); }
int fdatasync(int fd) { return keep(FDATASYNC, fd, 0); }
int ftruncate(int fd, long size) { return keep(FTRUNCATE, fd, size); }
