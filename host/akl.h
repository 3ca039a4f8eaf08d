/*
 * A checker of AKL runs, for C. Link with libaklcheck.a (README.md).
 *
 * A host lends byte slices: an address and a length. The checker keeps nothing between two calls: all that it knows of a run lies
 * in the store, which is plain bytes that a host may copy, save and load. Every call may be made with any bytes in any slice, of any
 * length: what is wrong is answered by a number (enum akl_refusal; docs/REFUSALS.md has an example of each).
 *
 *   store   the program, the query's names and the configuration. akl_start writes it; what it held before does not matter.
 *   work    room that a call works in. Before a call it may hold anything; after every call, refused or not, ALL of it is zero, also
 *           what is longer than AKL_WORK_BYTES. One working slice serves any number of stores.
 *   out     where the text of an answer goes.
 *
 * A refused call changes neither store nor out (akl_run: the steps before the refused one stand).
 *
 * Addresses   need no alignment. A slice that is written (store in akl_start, akl_step and akl_run; work; out) must not overlap another
 *             slice of the same call. Where a length is 0 the address may be NULL.
 * Threads     calls share nothing: they may run at the same time on different stores, each with a working slice of its own; one
 *             store is for one call at a time.
 * Otherwise   no call allocates memory, reads or writes a file, sets errno, calls back, or keeps an address.
 * Machine     x86-64 Linux (ELF). The library needs memcpy and memset and nothing else.
 * Stack       AKL_STACK_BYTES are enough for any call; README.md has the figures.
 */
#ifndef AKL_H
#define AKL_H

#include <stddef.h>

#ifdef __cplusplus
extern "C" {
#endif

/* Lengths, in bytes. Longer slices do: of a store only the first AKL_STORE_BYTES are read and written. */
#define AKL_STORE_BYTES 245853    /* a store; shorter is refused by 8 */
#define AKL_WORK_BYTES 524288     /* a working slice; shorter is refused by 8 */
#define AKL_PROGRAM_BYTES 16384   /* a program; longer is refused by 1 */
#define AKL_QUERY_BYTES 4096      /* a query; longer is refused by 1 */
#define AKL_STEPS_BYTES 16384     /* a steps text; longer is refused by 1 */
#define AKL_ANSWER_BYTES 4096     /* what the printed record lends for an answer; any length may be lent */
#define AKL_STACK_BYTES 1048576   /* a stack that is enough for any call */

/* What a call returns instead of 0, by its number and in the words of document 01. */
enum akl_refusal {
    AKL_ACCEPTED = 0,         /* nothing is refused */
    AKL_TOO_LONG = 1,         /* program or steps over 16,384 bytes, query over 4,096 */
    AKL_NOT_OF_GRAMMAR = 2,   /* text not of the grammar, name length included, counts and depth aside */
    AKL_TOO_MANY = 3,         /* over 128 definitions, 8 parameters or arguments, 16 query variables, depth 32 */
    AKL_TWICE = 4,            /* one name and arity defined twice, a variable twice in a parameter or hidden list */
    AKL_NOT_DEFINED = 5,      /* program atom without definition */
    AKL_NOT_BOUND = 6,        /* in a program, variable neither parameter nor hidden */
    AKL_TWO_OPERATORS = 7,    /* one choice, two operators */
    AKL_TOO_SHORT = 8,        /* store or working slice shorter than the documented length */
    AKL_NOT_WELL_FORMED = 9,  /* store holds no well-formed program and configuration */
    AKL_NO_RULE = 10,         /* rule not 1 to 14 */
    AKL_NO_PLACE = 11,        /* no such place; argument not 0, or in rule 12 no place */
    AKL_OTHER_KIND = 12,      /* goal there of another kind than the rule takes */
    AKL_CONDITION_FALSE = 13, /* the rule's condition is false */
    AKL_NO_FRESH_NUMBER = 14, /* fresh numbers would pass 65,534 */
    AKL_TOO_MANY_PARTS = 15,  /* new or starting configuration over 2,048 parts */
    AKL_NO_ANSWER = 16,       /* no answer of that number, counted from 1 */
    AKL_ANSWER_TOO_LONG = 17, /* answer text longer than the lent slice */
    AKL_NOT_A_LINE = 18       /* steps line not as described */
};

/*
 * The state of a configuration: failed, its top or-box is empty; final, every member of it is an answer; open, neither: there may be
 * steps left to do, or none that is possible, and answers may stand already.
 */
enum akl_state_number { AKL_FAILED = 0, AKL_FINAL = 1, AKL_OPEN = 2 };

/*
 * Reads a program and a query (no zero byte at their end) and writes the store of the query's start. A store that was there is
 * overwritten.
 * Returns 0, or a refusal: 1 to 7 of the program, then 1 to 5 and 7 of the query, then 8, then 15.
 */
size_t akl_start(const unsigned char *program, size_t program_bytes,
                 const unsigned char *query, size_t query_bytes,
                 unsigned char *store, size_t store_bytes,
                 unsigned char *work, size_t work_bytes);

/*
 * Does one step: a rule of 1 to 14, the number of a place, and the argument, which is 0 except in rule 12. Any numbers may be given.
 * Returns 0, or a refusal: 8, 9, then 10 to 15. Where it is 0 the store holds the configuration after the step.
 */
size_t akl_step(unsigned char *store, size_t store_bytes,
                unsigned char *work, size_t work_bytes,
                size_t rule, size_t place, size_t argument);

/*
 * Does the steps of a text, a line each, up to the first that is refused; those before it stand.
 * Returns 256 times the number of accepted steps, and the refusal of the text, of the call or of the next step added, or 0: take it
 * apart with akl_run_accepted and akl_run_refusal. 1 and 18 are of the whole text, before any step is tried, and come before 8 and 9:
 * a text can be judged alone, with no store (8: nothing is wrong with the text).
 */
size_t akl_run(const unsigned char *steps, size_t steps_bytes,
               unsigned char *store, size_t store_bytes,
               unsigned char *work, size_t work_bytes);

/*
 * Writes the text of an answer, counted from 1, to the beginning of out: no zero byte is put behind it, and what stands behind it is
 * left as it was.
 * Returns 256 and the length of the text (akl_answer_length), or a refusal: 8, 9, 16 or 17.
 */
size_t akl_answer(const unsigned char *store, size_t store_bytes,
                  unsigned char *work, size_t work_bytes,
                  size_t number,
                  unsigned char *out, size_t out_bytes);

/* Returns 256 times the state (akl_state_of), or a refusal: 8 or 9. */
size_t akl_state(const unsigned char *store, size_t store_bytes,
                 unsigned char *work, size_t work_bytes);

/* Returns 256 times the number of answers (akl_count_of), or a refusal: 8 or 9. */
size_t akl_count(const unsigned char *store, size_t store_bytes,
                 unsigned char *work, size_t work_bytes);

/* What a returned number says. Of akl_start and akl_step it is the refusal itself. */

/* akl_run: how many steps were accepted, and the refusal or 0. */
static inline size_t akl_run_accepted(size_t returned) { return returned / 256; }
static inline size_t akl_run_refusal(size_t returned) { return returned % 256; }

/* akl_answer: the refusal or 0, and where it is 0 the length of the text. */
static inline size_t akl_answer_refusal(size_t returned) { return returned < 256 ? returned : 0; }
static inline size_t akl_answer_length(size_t returned) { return returned < 256 ? 0 : returned - 256; }

/* akl_state: the refusal or 0, and where it is 0 the state, an enum akl_state_number. */
static inline size_t akl_state_refusal(size_t returned) { return returned % 256; }
static inline size_t akl_state_of(size_t returned) { return returned / 256; }

/* akl_count: the refusal or 0, and where it is 0 the number of answers. */
static inline size_t akl_count_refusal(size_t returned) { return returned % 256; }
static inline size_t akl_count_of(size_t returned) { return returned / 256; }

#ifdef __cplusplus
}
#endif

#endif
