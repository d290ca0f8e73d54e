// Refuses one request for memory, or two, of the program beside which it is loaded (LD_PRELOAD): those
// of the numbers in WANTING, from 0. At the end it writes, to the file WANTED, how many requests there were.
typedef unsigned long size;

extern void *__libc_malloc(size);
extern void *__libc_realloc(void *, size);
extern char *getenv(const char *);
extern int open(const char *, int, ...);
extern long write(int, const void *, size);

static const int WRITE_ANEW = 01 | 0100 | 01000;

static size came, first = ~0ul, second = ~0ul;
static int is_known;

static const char *read_number(const char *text, size *into) {
    if (*text < '0' || *text > '9') return text;
    for (*into = 0; *text >= '0' && *text <= '9'; text++) *into = *into * 10 + (size)(*text - '0');
    return *text == ' ' ? text + 1 : text;
}

static void know(void) {
    const char *text = getenv("WANTING");
    is_known = 1;
    if (text) read_number(read_number(text, &first), &second);
}

static int refuses(void) {
    if (!is_known) know();
    size number = came++;
    return number == first || number == second;
}

void *malloc(size wanted) { return refuses() ? 0 : __libc_malloc(wanted); }

void *realloc(void *had, size wanted) { return refuses() ? 0 : __libc_realloc(had, wanted); }

__attribute__((destructor)) static void tell(void) {
    const char *name = getenv("WANTED");
    int file = name ? open(name, WRITE_ANEW, 0600) : -1;
    char digits[24];
    size n = came, at = sizeof digits;
    do digits[--at] = (char)('0' + n % 10);
    while (n /= 10);
    if (file >= 0 && write(file, digits + at, sizeof digits - at) < 0) return;
}
