// Breaks the standard input and output of the program beside which it is loaded (LD_PRELOAD).
// The environment says how: READS and WRITES are each four numbers, as "1 40 5 2": at most 1 byte
// a call, and at byte 40 the next 2 calls fail with error 5; by error 0 they take nothing.
// A program that reads more than once for each byte, and once more, ends with status 97.
// Where BREAKING_CASES names a file, each of its lines is a case: how many bytes of the input there are, and then
// these eight numbers. At the first read a process is forked for each case, one after the other, which then
// goes on as the program does that was begun for it. A line to the file BREAKING_TOLD tells how each
// ended, and how many bytes stand on standard output and on standard error by then.
typedef unsigned long size;

extern long __read(int, void *, size);
extern long __write(int, const void *, size);
extern char *getenv(const char *);
extern int *__errno_location(void);
extern int open(const char *, int, ...);
extern long lseek(int, long, int);
extern int snprintf(char *, size, const char *, ...);
extern int fork(void);
extern int waitpid(int, int *, int);
extern unsigned alarm(unsigned);
extern void _exit(int);

enum { WRITE_ANEW = 01 | 0100 | 01000, CURRENT = 1, SECONDS = 60 };

struct side {
    size most, at, error, times, done, calls;
    int is_known;
};

static struct side input, output;
static size length = ~0ul;  // of the input
static int is_forked;

static size number(const char **text) {
    size n = 0;
    while (**text >= '0' && **text <= '9') n = n * 10 + (size)(*(*text)++ - '0');
    if (**text == ' ') (*text)++;
    return n;
}

static void learn(struct side *it, const char **text) {
    it->most = number(text);
    it->at = number(text);
    it->error = number(text);
    it->times = number(text);
    it->is_known = 1;
}

static void know(struct side *it, const char *name) {
    const char *text = getenv(name);
    if (!it->is_known && text) learn(it, &text);
}

// Goes on as a child for each case, and as nothing more itself.
static void fork_each(void) {
    static char text[1 << 20];
    char line[80];
    const char *name = getenv("BREAKING_CASES"), *told = getenv("BREAKING_TOLD"), *at = text;
    if (is_forked || !name || !told) return;
    is_forked = 1;
    int ends = open(told, WRITE_ANEW, 0600);
    if (ends < 0 || __read(open(name, 0), text, sizeof text - 1) < 0) _exit(98);
    for (; *at; at++) {
        int status = -1;
        lseek(0, 0, 0);
        int child = fork();
        if (child == 0) {
            alarm(SECONDS);
            length = number(&at);
            learn(&input, &at);
            learn(&output, &at);
            return;
        }
        if (child > 0) waitpid(child, &status, 0);
        while (*at && *at != '\n') at++;
        __write(ends, line, (size)snprintf(line, sizeof line, "%d %ld %ld\n", status, lseek(1, 0, CURRENT), lseek(2, 0, CURRENT)));
    }
    _exit(0);
}

// Whether this call fails, or takes nothing.
static int fails(struct side *it) {
    if (!it->is_known || it->done != it->at || it->times == 0) return 0;
    it->times--;
    *__errno_location() = (int)it->error;
    return 1;
}

// How many of these bytes a call is given.
static size given(const struct side *it, size count) {
    size most = it->is_known ? it->most : count;
    if (it->is_known && it->done < it->at && it->at - it->done < most) most = it->at - it->done;
    if (it == &input && length - it->done < most) most = length - it->done;
    return count < most ? count : most;
}

static long went(struct side *it, long taken) {
    if (taken > 0) it->done += (size)taken;
    return taken;
}

long read(int file, void *to, size count) {
    if (file != 0) return __read(file, to, count);
    fork_each();
    know(&input, "READS");
    if (input.is_known && input.calls++ > input.done) _exit(97);
    if (fails(&input)) return input.error ? -1 : 0;
    return went(&input, __read(file, to, given(&input, count)));
}

long write(int file, const void *from, size count) {
    if (file != 1) return __write(file, from, count);
    know(&output, "WRITES");
    if (fails(&output)) return output.error ? -1 : 0;
    return went(&output, __write(file, from, given(&output, count)));
}
