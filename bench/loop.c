/* What an interpreter's loop over the machine's instructions takes when nothing is proved of it: the measure for crates/pb_machine.

       cc -O2 -o /tmp/loop bench/loop.c && pbsolve compile < MODEL > /tmp/module && /tmp/loop /tmp/module [TURNS [NUMBERS]]

   It reads a module of one equation whose parameters are ranges, runs the code of each of its instances from the first to the last, or of those whose numbers stand in
   the file NUMBERS, one on a line, TURNS times, and prints how many there are, the instructions and the tokens of a turn, and nanoseconds for one instruction. It tests nothing, knows no loops, and
   has one opcode for each operator, where the machine's instruction names a group and then an operator of it. */
#include <stdint.h>
#include <stdio.h>
#include <stdlib.h>
#include <string.h>
#include <time.h>

enum { END, INT, BOOL, ENUM, GET, POP, ADD, SUB, MUL, NEG, DIV, MOD, MIN, MAX, ABS, LT, LE, GT, GE, EQ, NE, NOT, BAND, BOR, JMP, JT, JF, RNG,
       LOOP, NEXT, AND, OR, CLOSE, YES, NO, CUT, CALL, INL };

struct op { uint8_t code, slot; uint16_t target; int32_t low; int64_t value; };
struct token { uint32_t kind, number; };

static struct op *code;
static int64_t low[8], size[8], slots[8], stack[32];
static int parameters;
static struct token *output;

/* The code of one instance; how many instructions it ran is added to `turns`. */
static struct token *run(uint64_t *turns) {
    const struct op *op = code;
    int64_t *top = stack, quotient;
    struct token *out = output;
    uint64_t count = 0;
    for (;; op++) {
        count++;
        switch (op->code) {
        case END: *turns += count; return out;
        case INT: *top++ = op->value; break;
        case BOOL: case ENUM: *top++ = op->slot; break;
        case GET: *top++ = slots[op->slot]; break;
        case POP: top--; break;
        case ADD: top--; top[-1] += *top; break;
        case SUB: top--; top[-1] -= *top; break;
        case MUL: top--; top[-1] *= *top; break;
        case NEG: top[-1] = -top[-1]; break;
        case DIV: top--; quotient = top[-1] / *top; top[-1] = quotient - (top[-1] - quotient * *top < 0); break;
        case MOD: top--; top[-1] %= *top; top[-1] += top[-1] < 0 ? *top : 0; break;
        case MIN: top--; top[-1] = *top < top[-1] ? *top : top[-1]; break;
        case MAX: top--; top[-1] = *top > top[-1] ? *top : top[-1]; break;
        case ABS: top[-1] = top[-1] < 0 ? -top[-1] : top[-1]; break;
        case LT: top--; top[-1] = top[-1] < *top; break;
        case LE: top--; top[-1] = top[-1] <= *top; break;
        case GT: top--; top[-1] = top[-1] > *top; break;
        case GE: top--; top[-1] = top[-1] >= *top; break;
        case EQ: top--; top[-1] = top[-1] == *top; break;
        case NE: top--; top[-1] = top[-1] != *top; break;
        case NOT: top[-1] = !top[-1]; break;
        case BAND: top--; top[-1] &= *top; break;
        case BOR: top--; top[-1] |= *top; break;
        case JMP: op = code + op->target - 1; break;
        case JT: if (*--top) op = code + op->target - 1; break;
        case JF: if (!*--top) op = code + op->target - 1; break;
        case RNG: if (top[-1] < op->low || top[-1] > op->value) op = code + op->target - 1; break;
        case INL: if (slots[op->slot] < op->low || slots[op->slot] > op->value) op = code + op->target - 1; break;
        case AND: case OR: case CLOSE: case YES: case NO: case CUT: *out++ = (struct token){op->code, 0}; break;
        case CALL: {
            int64_t number = 0;
            top -= parameters;
            for (int i = 0; i < parameters; i++) number = number * size[i] + top[i] - low[i];
            *out++ = (struct token){CALL, number};
            break;
        }
        default: abort();
        }
    }
}

static const uint8_t *at;
static int64_t number(int bytes) { int64_t n = 0; memcpy(&n, at, bytes); at += bytes; return n; }
static int32_t bound(void) { return (int32_t)number(4); }

/* One instruction. */
static struct op decoded(void) {
    struct op op = {.code = number(1)};
    switch (op.code) {
    case INT: op.value = number(8); break;
    case BOOL: case GET: case CALL: op.slot = number(1); break;
    case ENUM: at++; op.slot = number(1); break;
    case JMP: case JT: case JF: op.target = number(2); break;
    case INL: op.slot = number(1); /* and then as RNG */
    case RNG: op.low = bound(); op.value = bound(); op.target = number(2); break;
    case LOOP: case NEXT: fprintf(stderr, "no loops\n"); exit(1);
    }
    return op;
}

int main(int words, char **word) {
    static uint8_t bytes[1 << 22];
    FILE *file = words > 1 ? fopen(word[1], "rb") : NULL;
    if (!file || !fread(bytes, 1, sizeof bytes, file)) return 1;
    at = bytes + 5;
    if (number(1) != 0 || number(1) != 1) return fprintf(stderr, "one equation and no sorts\n"), 1;
    at++;
    at += number(1);
    int64_t instances = 1;
    parameters = number(1);
    for (int i = 0; i < parameters; i++) {
        if (number(1) != 2) return fprintf(stderr, "ranges alone\n"), 1;
        low[i] = bound();
        size[i] = bound() - low[i] + 1;
        instances *= size[i];
    }
    if (number(1) != 0) return fprintf(stderr, "no loops\n"), 1;
    at += 4;
    output = calloc(number(4) + 1, sizeof *output);
    int length = number(2);
    code = calloc(length, sizeof *code);
    for (int i = 0; i < length; i++) code[i] = decoded();
    int turns = words > 2 ? atoi(word[2]) : 1;
    uint64_t count = 0, tokens = 0;
    long *chosen = NULL;
    FILE *numbers = words > 3 ? fopen(word[3], "r") : NULL;
    if (numbers) {
        chosen = calloc(instances, sizeof *chosen);
        int64_t read = 0;
        while (read < instances && fscanf(numbers, "%ld", &chosen[read]) == 1) read++;
        instances = read;
    }
    struct timespec begin, end;
    clock_gettime(CLOCK_MONOTONIC, &begin);
    for (int turn = 0; turn < turns; turn++)
        for (int64_t k = 0; k < instances; k++) {
            int64_t rest = chosen ? chosen[k] : k;
            for (int i = parameters; i-- > 0; rest /= size[i]) slots[i] = low[i] + rest % size[i];
            tokens += run(&count) - output;
        }
    clock_gettime(CLOCK_MONOTONIC, &end);
    double time = (end.tv_sec - begin.tv_sec) * 1e9 + (end.tv_nsec - begin.tv_nsec);
    printf("%ld instances, %lu instructions, %lu tokens, %.2f ns an instruction\n", instances, count / turns, tokens / turns, time / count);
    return 0;
}
