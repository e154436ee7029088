/* What reading a text takes when nothing is proved of it: the measure for crates/pb_text.

       cc -O2 -o /tmp/read bench/read.c && /tmp/read < TEXT

   It cuts the text of equations into tokens, makes the same tree as pb_text does (a block for each node, its list of links and its name), lets go of it again,
   and prints the bytes, the blocks, and MB a second. It knows equations without quantifiers, reads `val(..)`, calls and chains of operators, takes
   each operator to bind as the one before it, and tests nothing but its brackets. */
#include <ctype.h>
#include <stdio.h>
#include <stdlib.h>
#include <string.h>
#include <time.h>

struct node { enum { NAME, NUMBER, CHAIN, LIST } kind; char *name; unsigned long number; struct link *links; size_t count, room; };
struct link { unsigned place; int operator; struct node *operand; };

static const char *at, *start, *end;
static size_t blocks;

static void *block(size_t bytes) { blocks++; return malloc(bytes); }

/* Skips blanks and comments. */
static void skip(void) {
    while (at < end && (isspace((unsigned char)*at) || *at == '%')) {
        if (*at == '%') while (at < end && *at != '\n') at++;
        else at++;
    }
}

static void push(struct node *list, int operator, struct node *operand) {
    if (list->count == list->room) {
        list->room = list->room ? 2 * list->room : 4;
        list->links = realloc(list->links, list->room * sizeof(struct link));
        blocks++;
    }
    list->links[list->count++] = (struct link){ (unsigned)(at - start), operator, operand };
}

static struct node *chain(void);

static struct node *atom(void) {
    struct node *node = block(sizeof *node);
    skip();
    memset(node, 0, sizeof *node);
    if (isdigit((unsigned char)*at)) {
        node->kind = NUMBER;
        while (isdigit((unsigned char)*at)) node->number = node->number * 10 + (unsigned)(*at++ - '0');
    } else if (*at == '(') {
        at++;
        node->kind = CHAIN;
        push(node, 0, chain());
        if (*at++ != ')') exit(1);
    } else {
        const char *first = at;
        while (isalnum((unsigned char)*at) || *at == '_') at++;
        node->name = block((size_t)(at - first));
        memcpy(node->name, first, (size_t)(at - first));
        skip();
        if (*at == '(') {
            node->kind = LIST;
            do { at++; push(node, 0, chain()); } while (*at == ',');
            if (*at++ != ')') exit(1);
        }
    }
    skip();
    return node;
}

static int is_operator(char c) { return c && strchr("+-*<>=!&|", c) != NULL; }

/* Operands with operators between them. */
static struct node *chain(void) {
    struct node *first = atom(), *node;
    if (!is_operator(*at)) return first;
    node = block(sizeof *node);
    memset(node, 0, sizeof *node);
    node->kind = CHAIN;
    push(node, 0, first);
    while (is_operator(*at)) {
        int operator = *at++;
        if (is_operator(*at)) operator = operator * 256 + *at++;
        push(node, operator, atom());
    }
    return node;
}

static void let_go(struct node *node) {
    for (size_t k = 0; k < node->count; k++) let_go(node->links[k].operand);
    free(node->links);
    free(node->name);
    free(node);
}

int main(void) {
    static char text[1 << 26];
    size_t length = fread(text, 1, sizeof text - 1, stdin), equations = 0, room = 0;
    struct node **right_sides = NULL;
    clock_t before = clock();
    double seconds;
    start = at = text;
    end = text + length;
    while ((at = strstr(at, " = "))) {
        at += 3;
        if (equations == room) right_sides = realloc(right_sides, (room = 2 * room + 16) * sizeof *right_sides);
        right_sides[equations++] = chain();
        if (*at != ';') exit(1);
    }
    for (size_t k = 0; k < equations; k++) let_go(right_sides[k]);
    seconds = (double)(clock() - before) / CLOCKS_PER_SEC;
    printf("%zu bytes, %zu equations, %zu blocks, %.0f MB a second\n", length, equations, blocks, length / seconds / 1e6);
    return 0;
}
