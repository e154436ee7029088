/* Counts the turns of loops of the program that it is loaded into (LD_PRELOAD): how often its jumps to what stands before them are come to. Such a jump's
 * first byte becomes a breakpoint, behind which the jump is done here: each turn costs a signal, some two microseconds, and no other instruction costs more.
 *
 * TURNS_JUMPS names a file of the jumps' distances from the program's start, 4 bytes each; TURNS_REPORT the file that gets the count at the end; behind
 * TURNS_LIMIT turns the program is ended with status 99. */
/* It names what it takes of the C library itself, so that the clang of the toolchain can compile it where no header is. */
typedef unsigned long size_t;
typedef unsigned char byte;

extern char *getenv(const char *);
extern long atol(const char *);
extern unsigned long getauxval(unsigned long);
extern int snprintf(char *, size_t, const char *, ...);
extern int open(const char *, int, ...);
extern long read(int, void *, size_t);
extern long write(int, const void *, size_t);
extern int close(int);
extern int mprotect(void *, size_t, int);
extern long syscall(long, ...);
extern void abort(void);

/* Of the system's headers, for Linux on x86-64. */
enum { O_RDONLY = 0, O_WRONLY = 1, O_CREAT = 0100, O_TRUNC = 01000, SIGTRAP = 5, SA_SIGINFO = 4, AT_PHDR = 3, SYS_exit_group = 231 };
enum { ALL_ACCESS = 7, PAGE = 4096, BREAKPOINT = 0xcc, REGISTERS = 40, RIP = 16, FLAGS = 17 };
enum { CARRY = 1, PARITY = 4, ZERO = 0x40, SIGN = 0x80, OVERFLOW = 0x800 };
struct sigaction { void (*handler)(int, void *, void *); unsigned long mask[16]; int flags; void (*restorer)(void); };
extern int sigaction(int, const struct sigaction *, struct sigaction *);

static long turns, limit;
static byte *start;
/* The first bytes of the jumps, by their distance from the start. */
static byte first[1 << 24];

void _exit(int status);

/* Whether a jump of this condition is taken. */
static int is_taken(int condition, long flags) {
    int less = !(flags & SIGN) != !(flags & OVERFLOW);
    int holds[8] = {(flags & OVERFLOW) != 0, (flags & CARRY) != 0, (flags & ZERO) != 0, (flags & (CARRY | ZERO)) != 0,
                    (flags & SIGN) != 0, (flags & PARITY) != 0, less, less || (flags & ZERO) != 0};
    return holds[condition >> 1 & 7] != (condition & 1);
}

/* Does the jump at whose breakpoint the program is. */
static void turn(int signal, void *information, void *context) {
    long *registers = (long *)((char *)context + REGISTERS);
    byte *jump = (byte *)registers[RIP] - 1;
    if (__atomic_add_fetch(&turns, 1, __ATOMIC_RELAXED) == limit) _exit(99);
    byte kind = first[jump - start];
    int is_long = kind == 0x0f || kind == 0xe9, is_always = kind == 0xe9 || kind == 0xeb, size = kind == 0x0f ? 2 : 1;
    int condition = kind == 0x0f ? jump[1] : kind;
    byte *next = jump + size + (is_long ? 4 : 1);
    int distance = is_long ? *(int *)(jump + size) : *(signed char *)(jump + size);
    registers[RIP] = (long)(is_always || is_taken(condition, registers[FLAGS]) ? next + distance : next);
}

__attribute__((constructor)) static void begin(void) {
    const char *jumps = getenv("TURNS_JUMPS"), *most = getenv("TURNS_LIMIT");
    struct sigaction action = {turn, {0}, SA_SIGINFO, 0};
    unsigned int distances[1024];
    limit = most ? atol(most) : -1;
    start = (byte *)(getauxval(AT_PHDR) & -(unsigned long)PAGE);
    if (!jumps || sigaction(SIGTRAP, &action, 0)) abort();
    int file = open(jumps, O_RDONLY);
    for (long got; (got = read(file, distances, sizeof distances)) > 0;)
        for (long i = 0; i < got / 4; i++) {
            byte *jump = start + distances[i], *page = (byte *)((unsigned long)jump & -(unsigned long)PAGE);
            if (mprotect(page, PAGE, ALL_ACCESS)) abort();
            first[distances[i]] = *jump;
            *jump = BREAKPOINT;
        }
    close(file);
}

/* The program ends by this one, past all destructors. */
void _exit(int status) {
    char line[32];
    const char *report = getenv("TURNS_REPORT");
    int length = snprintf(line, sizeof line, "%ld\n", turns), file = report ? open(report, O_WRONLY | O_CREAT | O_TRUNC, 0644) : 2;
    if (write(file, line, length) < 0) abort();
    syscall(SYS_exit_group, status);
    __builtin_unreachable();
}
