// Memory, reads and writes that are refused, for `memory.sh` and `faults.sh`. The system loads this before the C library,
// so that the program calls the functions here.
//
//   REFUSE         the number of the allocation that gets nothing; with `..` behind it each later one gets nothing too
//   REFUSE_READ    the number of the read that errs
//   REFUSE_WRITE   the number of the write that errs
//   MOST           how many bytes a read gives and a write takes at most
//
// All other calls do what those of the C library do. A byte on descriptor 9 tells that one was refused.
#include <errno.h>
#include <stdlib.h>
#include <sys/syscall.h>
#include <unistd.h>

void *__libc_malloc(size_t size);
void *__libc_realloc(void *held, size_t size);

// The calls of one kind: how many were made, which one is refused, and whether each later one is.
struct calls {
    unsigned long made;
    unsigned long refused;
    int all_later;
};

static struct calls allocations;
static struct calls reads;
static struct calls writes;
static size_t most;

static struct calls refused_by(const char *name) {
    char *rest = "";
    const char *number = getenv(name);
    struct calls calls = {0, number == NULL ? 0 : strtoul(number, &rest, 10), 0};
    calls.all_later = *rest != '\0';
    return calls;
}

__attribute__((constructor)) static void begin(void) {
    const char *number = getenv("MOST");
    allocations = refused_by("REFUSE");
    reads = refused_by("REFUSE_READ");
    writes = refused_by("REFUSE_WRITE");
    most = number == NULL ? (size_t)-1 : strtoul(number, NULL, 10);
}

static int is_refused(struct calls *calls) {
    calls->made = calls->made + 1;
    if (calls->refused == 0 || calls->made < calls->refused) return 0;
    if (calls->made > calls->refused && !calls->all_later) return 0;
    return syscall(SYS_write, 9, "r", 1) == 1;
}

static size_t part(size_t bytes) {
    return bytes < most ? bytes : most;
}

void *malloc(size_t size) {
    return is_refused(&allocations) ? NULL : __libc_malloc(size);
}

void *realloc(void *held, size_t size) {
    return is_refused(&allocations) ? NULL : __libc_realloc(held, size);
}

ssize_t read(int from, void *into, size_t room) {
    if (is_refused(&reads)) {
        errno = EIO;
        return -1;
    }
    return syscall(SYS_read, from, into, part(room));
}

ssize_t write(int to, const void *bytes, size_t count) {
    if (is_refused(&writes)) {
        errno = EIO;
        return -1;
    }
    return syscall(SYS_write, to, bytes, part(count));
}

ssize_t __write(int to, const void *bytes, size_t count) {
    return write(to, bytes, count);
}
