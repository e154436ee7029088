/* Refuses one request for memory, or the start of one thread, of the program that it is loaded into (LD_PRELOAD), and
 * tells in a file what it refused.
 *
 * REFUSE_REQUEST=N refuses the Nth call of malloc, realloc or calloc, counted from 1 over all threads, and
 * REFUSE_THREAD=N the Nth call of pthread_create; 0 or nothing refuses none. REFUSE_REPORT names the file that gets one
 * line at the end: how many requests there were, how many threads, whether something was refused, and from where: `program`
 * where the program itself asked, `library` where the C library did, `thread` where a thread was refused. Where the program
 * asked, the return addresses follow, relative to the program's start. */
/* It names what it takes of the C library itself, so that the clang of the toolchain can compile it where no header is. */
typedef unsigned long size_t;
typedef unsigned long pthread_t;
typedef struct pthread_attributes pthread_attr_t;

extern void *__libc_malloc(size_t);
extern void *__libc_calloc(size_t, size_t);
extern void *__libc_realloc(void *, size_t);
extern char *getenv(const char *);
extern long atol(const char *);
extern unsigned long strtoul(const char *, char **, int);
extern char *strchr(const char *, int);
extern char *strstr(const char *, const char *);
extern int snprintf(char *, size_t, const char *, ...);
extern int open(const char *, int, ...);
extern long read(int, void *, size_t);
extern long write(int, const void *, size_t);
extern int close(int);
extern long readlink(const char *, char *, size_t);
extern long syscall(long, ...);
extern void abort(void);
extern void *dlsym(void *, const char *);
extern int backtrace(void **, int);
extern int *__errno_location(void);

/* Of the system's headers, for Linux on x86-64. */
enum { O_RDONLY = 0, O_WRONLY = 1, O_CREAT = 0100, O_TRUNC = 01000, EAGAIN = 11, ENOMEM = 12, SYS_exit_group = 231 };
#define RTLD_NEXT ((void *)-1L)

static long requests, threads;
static long refused_request = -1, refused_thread = -1;
static const char *refused = "nothing";
static void *trace[32];
static int trace_length;
static char *program_start, *program_end;

static long number(const char *name) {
    const char *text = getenv(name);
    return text ? atol(text) : 0;
}

/* Where the program's own code lies, by /proc/self/maps, read without memory. */
static void find_program(void) {
    static char maps[1 << 16], path[4096];
    long length = readlink("/proc/self/exe", path, sizeof path - 1);
    if (length < 0) return;
    path[length] = 0;
    int file = open("/proc/self/maps", O_RDONLY);
    long all = 0, got;
    while ((got = read(file, maps + all, sizeof maps - 1 - all)) > 0) all += got;
    close(file);
    maps[all] = 0;
    for (char *line = maps; line && *line; line = strchr(line, '\n'), line = line ? line + 1 : 0) {
        char *end = strchr(line, '\n');
        if (end) *end = 0;
        if (strstr(line, path)) {
            char *dash;
            char *low = (char *)strtoul(line, &dash, 16);
            char *high = (char *)strtoul(dash + 1, 0, 16);
            if (!program_start) program_start = low;
            program_end = high;
        }
        if (end) *end = '\n';
    }
}

__attribute__((constructor)) static void begin(void) {
    void *first[1];
    backtrace(first, 1); /* takes its memory before anything is counted */
    find_program();
    __atomic_store_n(&requests, 0, __ATOMIC_SEQ_CST);
    refused_request = number("REFUSE_REQUEST");
    refused_thread = number("REFUSE_THREAD");
}

static void tell(void) {
    const char *name = getenv("REFUSE_REPORT");
    if (!name) return;
    static char line[4096];
    int length = snprintf(line, sizeof line, "%ld %ld %s", requests, threads, refused);
    for (int i = 0; i < trace_length && length < 4000; i++) {
        char *place = trace[i];
        if (place >= program_start && place < program_end)
            length += snprintf(line + length, sizeof line - length, " %lx", (long)(place - program_start));
    }
    line[length++] = '\n';
    int file = open(name, O_WRONLY | O_CREAT | O_TRUNC, 0644);
    if (write(file, line, length) < 0) abort();
    close(file);
}

__attribute__((destructor)) static void end(void) { tell(); }

/* The program ends by this one, past all destructors. */
void _exit(int status) {
    tell();
    syscall(SYS_exit_group, status);
    __builtin_unreachable();
}

static int is_refused(void *caller) {
    if (refused_request < 0) return 0;
    long own = __atomic_add_fetch(&requests, 1, __ATOMIC_SEQ_CST);
    if (own != refused_request) return 0;
    refused = (char *)caller >= program_start && (char *)caller < program_end ? "program" : "library";
    trace_length = backtrace(trace, 32);
    *__errno_location() = ENOMEM;
    return 1;
}

void *malloc(size_t size) {
    return is_refused(__builtin_return_address(0)) ? 0 : __libc_malloc(size);
}

void *calloc(size_t count, size_t size) {
    return is_refused(__builtin_return_address(0)) ? 0 : __libc_calloc(count, size);
}

void *realloc(void *old, size_t size) {
    return is_refused(__builtin_return_address(0)) ? 0 : __libc_realloc(old, size);
}

int pthread_create(pthread_t *thread, const pthread_attr_t *attributes, void *(*start)(void *), void *argument) {
    static int (*real)(pthread_t *, const pthread_attr_t *, void *(*)(void *), void *);
    if (!real) real = dlsym(RTLD_NEXT, "pthread_create");
    if (__atomic_add_fetch(&threads, 1, __ATOMIC_SEQ_CST) == refused_thread) {
        refused = "thread";
        return EAGAIN;
    }
    return real(thread, attributes, start, argument);
}
