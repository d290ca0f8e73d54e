// Fails calls of a store's two files, of the program beside which it is loaded (LD_PRELOAD). FAILING_STORE
// is the path of the database file, and the log is beside it. FAILING_CALLS names one of them or `both`,
// and a number: so many calls pass by which they are read, written, cut or synced, and each after these
// fails, or only so many where a second number says so. Where FAILING_SYNCED names a folder, the machine
// stops instead: either file is put back as it stood at its last sync, of which the folder has a copy, but
// for so many blocks of what was written since, from the first one that changed, as FAILING_LEFT says of
// the log and of the database file; and the process ends with status 70. Where FAILING_LEFT is `all`, the
// process alone is killed, and nothing is put back. At its end a process writes, to the file FAILING_TOLD,
// how many calls there were of those that may fail, and how many failed. Where FAILING_SEEN names a file,
// each call is written to it before it is made: a line that says what it does (read, write, cut, sync), to
// which file, how many bytes stand on standard output by then, the place and length, and which files are
// there (1 the log, 2 the database file); and behind the line of a write what is written. What is random
// is the same for each process that finds the same number in FAILING_RANDOM.
typedef unsigned long size;

extern char *getenv(const char *);
extern long syscall(long, ...);
extern int *__errno_location(void);
extern int open(const char *, int, ...);
extern int close(int);
extern int snprintf(char *, size, const char *, ...);
extern int strcmp(const char *, const char *);
extern int memcmp(const void *, const void *, size);
extern size strlen(const char *);
extern unsigned long strtoul(const char *, char **, int);
extern long readlink(const char *, char *, size);
extern long lseek(int, long, int);
extern int access(const char *, int);
extern void _exit(int);

enum { LOG, DATABASE, NEITHER };
enum { WRITE = 1, PREAD = 17, PWRITE = 18, FSYNC = 74, FDATASYNC = 75, FTRUNCATE = 77, GETRANDOM = 318 };
enum { READ_WRITE = 2, WRITE_ANEW = 01 | 0100 | 01000, CURRENT = 1, END = 2, BLOCK = 512, NO_DISK = 5, STOPPED = 70 };

static const char *const names[] = {"log", "file"};
static const char *const endings[] = {"-wal", ""};

static const char *store, *synced;
static int is_known, is_killed, may_fail[2], seen = -1;
static size passing = ~0ul, failing = ~0ul, left[2], came, failed;

static void know(void) {
    const char *calls = getenv("FAILING_CALLS"), *blocks = getenv("FAILING_LEFT"), *told = getenv("FAILING_SEEN");
    is_known = 1;
    store = getenv("FAILING_STORE");
    if (told) seen = open(told, WRITE_ANEW, 0600);
    synced = getenv("FAILING_SYNCED");
    if (!calls) return;
    may_fail[LOG] = calls[0] != 'f';
    may_fail[DATABASE] = calls[0] != 'l';
    while (*calls && *calls != ' ') calls++;
    char *behind;
    passing = strtoul(calls, &behind, 10);
    if (*behind) failing = strtoul(behind, 0, 10);
    if (!blocks) return;
    is_killed = !strcmp(blocks, "all");
    left[LOG] = strtoul(blocks, &behind, 10);
    left[DATABASE] = strtoul(behind, 0, 10);
}

static int which(int file) {
    char link[40], name[4096], wanted[4096];
    if (!is_known) know();
    if (!store) return NEITHER;
    snprintf(link, sizeof link, "/proc/self/fd/%d", file);
    long length = readlink(link, name, sizeof name - 1);
    if (length < 0) return NEITHER;
    name[length] = 0;
    for (int it = LOG; it <= DATABASE; it++) {
        snprintf(wanted, sizeof wanted, "%s%s", store, endings[it]);
        if (!strcmp(name, wanted)) return it;
    }
    return NEITHER;
}

// Copies a file's bytes from a place on, and the other one ends where they do.
static void copy(int from, int to, long at) {
    static char bytes[1 << 16];
    long n;
    syscall(FTRUNCATE, to, at);
    for (; (n = syscall(PREAD, from, bytes, sizeof bytes, at)) > 0; at += n)
        if (syscall(PWRITE, to, bytes, n, at) != n) _exit(71);
}

static int opened_copy(int it, int flags) {
    char name[4096];
    snprintf(name, sizeof name, "%s/%s", synced, names[it]);
    return open(name, flags, 0600);
}

static void keep(int it, int file) {
    int to = opened_copy(it, WRITE_ANEW);
    if (to < 0) _exit(72);
    copy(file, to, 0);
    close(to);
}

// The place of the first block in which the files differ, or of their end.
static long first_change(int old, int new) {
    char a[BLOCK], b[BLOCK];
    for (long at = 0;; at += BLOCK) {
        long n = syscall(PREAD, old, a, BLOCK, at), m = syscall(PREAD, new, b, BLOCK, at);
        if (n != m || n < BLOCK || memcmp(a, b, BLOCK)) return at;
    }
}

static void put_back(int it) {
    char name[4096];
    snprintf(name, sizeof name, "%s%s", store, endings[it]);
    int old = opened_copy(it, 0), new = open(name, READ_WRITE);
    if (old < 0 || new < 0) return;  // it wasn't synced, and so nothing was written to it
    long end = first_change(old, new) + left[it] * BLOCK, length = lseek(new, 0, END);
    copy(old, new, end < length ? end : length);
}

static void tell(void) {
    char text[64];
    const char *name = getenv("FAILING_TOLD");
    int file = name ? open(name, WRITE_ANEW, 0600) : -1;
    snprintf(text, sizeof text, "%lu %lu", came, failed);
    if (file >= 0) syscall(PWRITE, file, text, strlen(text), 0L);
}

static int are_there(void) {
    char name[4096];
    int there = 0;
    for (int it = LOG; it <= DATABASE; it++) {
        snprintf(name, sizeof name, "%s%s", store, endings[it]);
        there |= (access(name, 0) == 0) << it;
    }
    return there;
}

static void note(char what, int it, const void *bytes, size n, long at) {
    char line[128];
    if (it == NEITHER || seen < 0) return;
    int length = snprintf(line, sizeof line, "%c %d %ld %ld %lu %d\n", what, it, lseek(1, 0, CURRENT), at, n, are_there());
    syscall(WRITE, seen, line, length);
    if (bytes) syscall(WRITE, seen, bytes, n);
}

static int fails(int it) {
    if (it == NEITHER || !may_fail[it] || came++ < passing || failed == failing) return 0;
    failed++;
    if (synced) {
        if (!is_killed) {
            put_back(LOG);
            put_back(DATABASE);
        }
        tell();
        _exit(STOPPED);
    }
    *__errno_location() = NO_DISK;
    return 1;
}

long pread(int file, void *into, size n, long at) {
    int it = which(file);
    note('r', it, 0, n, at);
    return fails(it) ? -1 : syscall(PREAD, file, into, n, at);
}

long pwrite(int file, const void *from, size n, long at) {
    int it = which(file);
    note('w', it, from, n, at);
    return fails(it) ? -1 : syscall(PWRITE, file, from, n, at);
}

int ftruncate(int file, long length) {
    int it = which(file);
    note('c', it, 0, 0, length);
    return fails(it) ? -1 : (int)syscall(FTRUNCATE, file, length);
}

static int syncs(long call, int file) {
    int it = which(file);
    note('s', it, 0, 0, 0);
    if (fails(it) || syscall(call, file)) return -1;
    if (synced && it != NEITHER) keep(it, file);
    return 0;
}

int fsync(int file) { return syncs(FSYNC, file); }

int fdatasync(int file) { return syncs(FDATASYNC, file); }

int getentropy(void *into, size n) {
    const char *text = getenv("FAILING_RANDOM");
    if (!text) return syscall(GETRANDOM, into, n, 0) == (long)n ? 0 : -1;
    for (size k = 0, number = strtoul(text, 0, 10); k < n; k++) ((char *)into)[k] = (char)(number + 7 * k);
    return 0;
}

long pread64(int, void *, size, long) __attribute__((alias("pread")));
long pwrite64(int, const void *, size, long) __attribute__((alias("pwrite")));
int ftruncate64(int, long) __attribute__((alias("ftruncate")));

__attribute__((destructor)) static void end(void) { tell(); }
