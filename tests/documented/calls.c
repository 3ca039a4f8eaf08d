/*
 * Makes the calls that it reads, a line each, and prints what each returned and left. For tests/refusals.
 *
 *     fresh                               a store full of other bytes
 *     byte AT VALUE                       one byte of the store
 *     start PROGRAM QUERY STORE WORK      texts as hexadecimal digits, '-' where empty; STORE, WORK and OUT are lengths, or NULL
 *     step STORE WORK RULE PLACE ARGUMENT
 *     run STEPS STORE WORK
 *     answer STORE WORK NUMBER OUT
 *     state STORE WORK
 *     count STORE WORK
 *
 * For each call a line: what it returned; the store, 'kept' or 'new'; the output slice, 'kept', 'text' with the text in hexadecimal
 * digits, or 'spoiled'; the working slice, 'zero' or 'left'. What stands behind a lent part must stay too: else 'spoiled'.
 */
#include "akl.h"
#include <stdio.h>
#include <stdlib.h>
#include <string.h>

enum { BEHIND = 64, STORE = AKL_STORE_BYTES + BEHIND, WORK = AKL_WORK_BYTES + BEHIND, OUT = AKL_ANSWER_BYTES + BEHIND };
enum { STORE_FILL = 0xA5, WORK_FILL = 0xC3, OUT_FILL = 0xEE };

static unsigned char store[STORE], before[STORE], work[WORK], out[OUT];
static char word[2 * 4 * AKL_PROGRAM_BYTES + 1];

static void wrong(const char *what) {
    fprintf(stderr, "calls: wrong input at '%s'\n", what);
    exit(2);
}

static const char *next_word(void) {
    if (scanf("%131072s", word) != 1)
        wrong("the end");
    return word;
}

static size_t next_number(void) {
    char *end;
    unsigned long long n = strtoull(next_word(), &end, 10);
    if (*end != '\0')
        wrong(word);
    return (size_t)n;
}

/* A part of a slice, from its beginning on; NULL where that is asked for. */
struct part {
    unsigned char *at;
    size_t length;
};

static struct part next_part(unsigned char *slice, size_t most) {
    struct part p = {NULL, 0};
    const char *text = next_word();
    char *end;
    if (strcmp(text, "NULL") == 0)
        return p;
    p.at = slice;
    p.length = strtoull(text, &end, 10);
    if (*end != '\0' || p.length > most)
        wrong(text);
    return p;
}

/* A text in memory of its own, of exactly its length. */
static struct part next_text(void) {
    const char *digits = next_word();
    struct part p = {NULL, 0};
    unsigned byte;
    if (strcmp(digits, "NULL") == 0)
        return p;
    p.length = strcmp(digits, "-") == 0 ? 0 : strlen(digits) / 2;
    p.at = malloc(p.length + (p.length == 0));
    if (p.at == NULL)
        wrong("no memory");
    for (size_t i = 0; i < p.length; i++) {
        if (sscanf(digits + 2 * i, "%2x", &byte) != 1)
            wrong(digits);
        p.at[i] = (unsigned char)byte;
    }
    return p;
}

/* Whether all bytes of a slice from a place on have a value. */
static int all(const unsigned char *slice, size_t from, size_t to, unsigned char value) {
    for (size_t i = from; i < to; i++)
        if (slice[i] != value)
            return 0;
    return 1;
}

static void lend(void) {
    memcpy(before, store, STORE);
    memset(work, WORK_FILL, WORK);
    memset(out, OUT_FILL, OUT);
}

/* What is left, where w bytes of the working slice and a text of t bytes in the output slice are due to be written. */
static void print_left(size_t returned, size_t w, size_t t) {
    size_t lost = memcmp(store + AKL_STORE_BYTES, before + AKL_STORE_BYTES, BEHIND) != 0;
    printf("%zu ", returned);
    printf("%s ", lost ? "spoiled" : memcmp(store, before, STORE) == 0 ? "kept" : "new");
    if (t > OUT || !all(out, t, OUT, OUT_FILL))
        printf("spoiled ");
    else if (t == 0)
        printf("kept ");
    else {
        printf("text");
        for (size_t i = 0; i < t; i++)
            printf("%02x", out[i]);
        printf(" ");
    }
    printf("%s\n", !all(work, w, WORK, WORK_FILL) ? "spoiled" : all(work, 0, w, 0) ? "zero" : "left");
}

static void make_call(const char *name) {
    struct part a, b, s, w, o;
    size_t x, y, z;

    lend();
    if (strcmp(name, "start") == 0) {
        a = next_text(), b = next_text(), s = next_part(store, STORE), w = next_part(work, WORK);
        print_left(akl_start(a.at, a.length, b.at, b.length, s.at, s.length, w.at, w.length), w.length, 0);
        free(a.at), free(b.at);
    } else if (strcmp(name, "step") == 0) {
        s = next_part(store, STORE), w = next_part(work, WORK);
        x = next_number(), y = next_number(), z = next_number();
        print_left(akl_step(s.at, s.length, w.at, w.length, x, y, z), w.length, 0);
    } else if (strcmp(name, "run") == 0) {
        a = next_text(), s = next_part(store, STORE), w = next_part(work, WORK);
        print_left(akl_run(a.at, a.length, s.at, s.length, w.at, w.length), w.length, 0);
        free(a.at);
    } else if (strcmp(name, "answer") == 0) {
        s = next_part(store, STORE), w = next_part(work, WORK), x = next_number(), o = next_part(out, OUT);
        y = akl_answer(s.at, s.length, w.at, w.length, x, o.at, o.length);
        print_left(y, w.length, akl_answer_length(y));
    } else if (strcmp(name, "state") == 0) {
        s = next_part(store, STORE), w = next_part(work, WORK);
        print_left(akl_state(s.at, s.length, w.at, w.length), w.length, 0);
    } else if (strcmp(name, "count") == 0) {
        s = next_part(store, STORE), w = next_part(work, WORK);
        print_left(akl_count(s.at, s.length, w.at, w.length), w.length, 0);
    } else
        wrong(name);
}

int main(void) {
    char name[8];

    memset(store, STORE_FILL, STORE);
    while (scanf("%7s", name) == 1) {
        if (strcmp(name, "fresh") == 0)
            memset(store, STORE_FILL, STORE);
        else if (strcmp(name, "byte") == 0) {
            size_t at = next_number();
            if (at >= STORE)
                wrong("byte");
            store[at] = (unsigned char)next_number();
        } else
            make_call(name);
    }
    return 0;
}
