/* Loaded before the C library's own (LD_PRELOAD): counts a program's allocations, and tries what follows where one is refused.
   At each number that is asked for, the process is copied. The copy goes on with that one allocation refused; what it writes and
   how it ends is looked at, and then the process itself goes on with the allocation granted. So one run tries them all.
   No header is read, since the kit's compiler has none: what is used of the C library is declared here, and the numbers are those
   of Linux on x86-64. */
#define NULL ((void *)0)
typedef __SIZE_TYPE__ size_t;
struct limit { unsigned long soft, hard; };

enum { READ_ONLY = 0, WRITE_ONLY = 01, CREATE = 0100, APPEND = 02000, CLOSE_ON_EXEC = 02000000 };
enum { FROM_START = 0, FROM_HERE = 1, PROCESSOR_TIME = 0, WANT_OF_MEMORY = 12 };

int open(const char *, int, ...), close(int), dup2(int, int), pipe(int *), fork(void), waitpid(int, int *, int);
int setrlimit(int, const struct limit *), memcmp(const void *, const void *, size_t), snprintf(char *, size_t, const char *, ...);
long read(int, void *, size_t), write(int, const void *, size_t), lseek(int, long, int), time(long *), atol(const char *);
char *getenv(const char *);
void _exit(int) __attribute__((noreturn));
int *__errno_location(void);
void *__libc_malloc(size_t), *__libc_realloc(void *, size_t);

/* Of processor time, for one copy. */
#define SECONDS 600

static long count, ends, step, last, without, right, wrong, tried, stopped, rest;
static int is_copy, refuses_all, right_status, report = -1;
static char right_text[1 << 20];
static long right_length;
static long deadline;

static long number(const char *name) {
    const char *text = getenv(name);
    return text ? atol(text) : 0;
}

/* REFUSE_REPORT: where to write. REFUSE_ENDS: how many at both ends are tried; REFUSE_STEP: and each such one between, none at 0.
   REFUSE_COUNT: how many there are. REFUSE_TEXT, REFUSE_STATUS: the right answer. REFUSE_REST: 1 where all later ones are refused too. */
__attribute__((constructor)) static void begin(void) {
    const char *path = getenv("REFUSE_REPORT");
    const char *text = getenv("REFUSE_TEXT");
    if (!path) return;
    report = open(path, WRITE_ONLY | CREATE | APPEND | CLOSE_ON_EXEC, 0644);
    ends = number("REFUSE_ENDS");
    step = number("REFUSE_STEP");
    last = number("REFUSE_COUNT");
    rest = number("REFUSE_REST");
    right_status = number("REFUSE_STATUS");
    deadline = time(NULL) + number("REFUSE_SECONDS");
    if (text) {
        int from = open(text, READ_ONLY | CLOSE_ON_EXEC);
        right_length = read(from, right_text, sizeof right_text);
        close(from);
    }
}

static void say(const char *line, int length) {
    if (write(report, line, length) != length) _exit(99);
}

static int is_tried(void) {
    if (is_copy || !last) return 0;
    if (count > ends && count <= last - ends && (step == 0 || count % step)) return 0;
    if (time(NULL) >= deadline) {
        if (!stopped) stopped = count;
        return 0;
    }
    return 1;
}

/* The copy has a place of its own in the input. */
static void own_streams(int out) {
    long at = lseek(0, 0, FROM_HERE);
    int in = open("/proc/self/fd/0", READ_ONLY);
    if (at >= 0 && in >= 0 && lseek(in, at, FROM_START) == at) dup2(in, 0);
    if (in > 0) close(in);
    dup2(out, 1);
    close(out);
}

static void judge(const char *text, long length, int how) {
    char line[200];
    int by = how & 0x7f, status = by ? -by : (how >> 8) & 0xff;
    if (status == 6 && length == 0) without++;
    else if (status == right_status && length == right_length && !memcmp(text, right_text, length)) right++;
    else {
        wrong++;
        if (wrong <= 20) say(line, snprintf(line, sizeof line, "wrong %ld status %d bytes %ld\n", count, status, length));
    }
}

/* Whether this allocation is refused: in the copy. */
static int is_refused(void) {
    static char text[1 << 20];
    int ways[2];
    if (report < 0) return 0;
    if (refuses_all) return 1;
    count++;
    if (!is_tried()) return 0;
    if (pipe(ways)) _exit(99);
    int copy = fork();
    if (copy < 0) _exit(99);
    if (copy == 0) {
        is_copy = 1;
        refuses_all = rest != 0;
        close(ways[0]);
        own_streams(ways[1]);
        setrlimit(PROCESSOR_TIME, &(struct limit){SECONDS, SECONDS});
        return 1;
    }
    close(ways[1]);
    long length = 0, got;
    while ((got = read(ways[0], text + length, sizeof text - length)) > 0) length += got;
    close(ways[0]);
    int how;
    waitpid(copy, &how, 0);
    tried++;
    judge(text, length, how);
    return 0;
}

__attribute__((destructor)) static void end(void) {
    char line[200];
    if (report < 0 || is_copy) return;
    say(line, snprintf(line, sizeof line, "end count %ld tried %ld memory %ld right %ld wrong %ld stopped %ld\n", count, tried, without, right, wrong, stopped));
}

void *malloc(size_t size) {
    if (is_refused()) {
        *__errno_location() = WANT_OF_MEMORY;
        return NULL;
    }
    return __libc_malloc(size);
}

void *realloc(void *old, size_t size) {
    if (is_refused()) {
        *__errno_location() = WANT_OF_MEMORY;
        return NULL;
    }
    return __libc_realloc(old, size);
}
