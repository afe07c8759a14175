/* Stands before the C library's read and write in a program that ./faults runs, and makes them do less than they are asked, as a kernel may.

   FAULT_READ_MOST=N    a read of standard input gives at most N bytes
   FAULT_READ_SEED=N    it gives a random count of bytes, from 1 to FAULT_READ_MOST, by this seed
   FAULT_READ_FAIL=N    the Nth read fails, with EINTR; -1: before every read that is made, one fails
   FAULT_WRITE_...      the same for writes to standard output
   FAULT_COUNTS=FILE    at the end FILE holds how many reads there were, how many of them were shortened, how many failed, then the same of
                        writes: a test that finds no such file, or no fault in it, has tested nothing

   What is used of the C library is declared here, and the build links nothing, so that the object asks for no version of it: the kit's
   loader brings a library that may be older than the machine's. The numbers are those of Linux on x86-64, which is what the programs are for. */
#include <stddef.h>

enum { INTERRUPTED = 4, CALL_READ = 0, CALL_WRITE = 1, CREATE_TO_WRITE = 01 | 0100 | 01000 };

long syscall(long number, ...);
char *getenv(const char *name);
long strtol(const char *text, char **end, int base);
int open(const char *name, int flags, ...);
int dprintf(int file, const char *format, ...);
int *__errno_location(void);

struct fault {
    long most, seed, fail;
    long calls, shortened, failed;
    int let_through;
};

static struct fault reads, writes;

static long setting(const char *name) {
    const char *text = getenv(name);
    return text ? strtol(text, NULL, 10) : 0;
}

/* Settings are fetched before main, since a program may change its environment. */
__attribute__((constructor)) static void begin(void) {
    reads = (struct fault){setting("FAULT_READ_MOST"), setting("FAULT_READ_SEED"), setting("FAULT_READ_FAIL"), 0, 0, 0, 0};
    writes = (struct fault){setting("FAULT_WRITE_MOST"), setting("FAULT_WRITE_SEED"), setting("FAULT_WRITE_FAIL"), 0, 0, 0, 0};
}

__attribute__((destructor)) static void end(void) {
    const char *name = getenv("FAULT_COUNTS");
    int file = name ? open(name, CREATE_TO_WRITE, 0666) : -1;
    if (file >= 0)
        dprintf(file, "%ld %ld %ld %ld %ld %ld\n", reads.calls, reads.shortened, reads.failed, writes.calls, writes.shortened, writes.failed);
}

static int fails(struct fault *fault) {
    fault->calls++;
    if (fault->fail == -1)
        fault->let_through = !fault->let_through;
    if (fault->fail == -1 ? fault->let_through : fault->calls == fault->fail) {
        fault->failed++;
        *__errno_location() = INTERRUPTED;
        return 1;
    }
    return 0;
}

static long random_up_to(struct fault *fault, long most) {
    fault->seed = (fault->seed * 1103515245 + 12345) & 0x7fffffff;
    return 1 + (fault->seed >> 8) % most;
}

static size_t shorten(struct fault *fault, size_t asked) {
    size_t most = fault->most;
    if (most && fault->seed)
        most = random_up_to(fault, fault->most);
    if (!most || asked <= most)
        return asked;
    fault->shortened++;
    return most;
}

long read(int file, void *buffer, size_t count) {
    if (file == 0 && fails(&reads))
        return -1;
    return syscall(CALL_READ, file, buffer, file == 0 ? shorten(&reads, count) : count);
}

long write(int file, const void *buffer, size_t count) {
    if (file == 1 && fails(&writes))
        return -1;
    return syscall(CALL_WRITE, file, buffer, file == 1 ? shorten(&writes, count) : count);
}
