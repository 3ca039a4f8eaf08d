/*
 * A host: checks the run in a folder and prints its record.
 *
 *     example DIR      reads DIR/rules.akl, DIR/query.akl and DIR/steps.txt; a file that cannot be opened counts as empty
 *
 * The record alone goes to the output. The error stream gets a line on what was refused, in words.
 * Status 0: a record is printed, refusals among them. 1: the machine failed (memory, files, output). 2: wrongly called.
 */
#define _POSIX_C_SOURCE 200809L /* opendir, pthread_create */
#include "akl.h"
#include <dirent.h>
#include <errno.h>
#include <pthread.h>
#include <stdio.h>
#include <stdlib.h>
#include <string.h>

/* What document 01 says of a refusal. */
static const char *words(size_t refusal) {
    switch (refusal) {
    case AKL_TOO_LONG: return "program or steps over 16,384 bytes, query over 4,096";
    case AKL_NOT_OF_GRAMMAR: return "text not of the grammar, name length included, counts and depth aside";
    case AKL_TOO_MANY: return "over 128 definitions, 8 parameters or arguments, 16 query variables, depth 32";
    case AKL_TWICE: return "one name and arity defined twice, a variable twice in a parameter or hidden list";
    case AKL_NOT_DEFINED: return "program atom without definition";
    case AKL_NOT_BOUND: return "in a program, variable neither parameter nor hidden";
    case AKL_TWO_OPERATORS: return "one choice, two operators";
    case AKL_TOO_SHORT: return "store or working slice shorter than the documented length";
    case AKL_NOT_WELL_FORMED: return "store holds no well-formed program and configuration";
    case AKL_NO_RULE: return "rule not 1 to 14";
    case AKL_NO_PLACE: return "no such place; argument not 0, or in rule 12 no place";
    case AKL_OTHER_KIND: return "goal there of another kind than the rule takes";
    case AKL_CONDITION_FALSE: return "the rule's condition is false";
    case AKL_NO_FRESH_NUMBER: return "fresh numbers would pass 65,534";
    case AKL_TOO_MANY_PARTS: return "new or starting configuration over 2,048 parts";
    case AKL_NO_ANSWER: return "no answer of that number, counted from 1";
    case AKL_ANSWER_TOO_LONG: return "answer text longer than the lent slice";
    case AKL_NOT_A_LINE: return "steps line not as described";
    default: return "nothing is refused";
    }
}

/* Ends with a message and what the machine says. */
static void stop(const char *what, const char *name) {
    fprintf(stderr, "example: %s%s: %s\n", what, name, strerror(errno));
    exit(1);
}

/* A text with room for one byte more than is allowed: what is longer is refused by 1 whatever follows. */
struct text {
    unsigned char bytes[AKL_PROGRAM_BYTES + 1];
    size_t length;
};

/* All that a run needs, some 850,000 bytes. */
struct host {
    struct text program, query, steps;
    unsigned char store[AKL_STORE_BYTES];
    unsigned char work[AKL_WORK_BYTES];
    unsigned char out[AKL_ANSWER_BYTES];
};

static void load(struct text *text, const char *folder, const char *name) {
    char path[4096];
    FILE *file;
    int length = snprintf(path, sizeof path, "%s/%s", folder, name);

    text->length = 0;
    if (length < 0 || (size_t)length >= sizeof path) {
        errno = ENAMETOOLONG;
        stop("cannot open ", folder);
    }
    file = fopen(path, "rb");
    if (file == NULL)
        return;
    text->length = fread(text->bytes, 1, sizeof text->bytes, file);
    if (ferror(file))
        stop("cannot read ", path);
    fclose(file);
}

/* The first two lines of the record. */
static void two_lines(size_t accepted, size_t refusal) {
    printf("accepted %zu\nrefusal %zu\n", accepted, refusal);
    if (refusal != AKL_ACCEPTED)
        fprintf(stderr, "example: refused by %zu after %zu steps: %s\n", refusal, accepted, words(refusal));
}

/* A refusal that a host which lends what is documented never meets. */
static void unexpected(const char *call, size_t refusal) {
    fprintf(stderr, "example: %s was refused by %zu: %s\n", call, refusal, words(refusal));
    exit(1);
}

static void print_answers(struct host *h) {
    size_t number, got;

    for (number = 1;; number++) {
        got = akl_answer(h->store, sizeof h->store, h->work, sizeof h->work, number, h->out, sizeof h->out);
        switch (akl_answer_refusal(got)) {
        case AKL_ACCEPTED:
            printf("answer ");
            fwrite(h->out, 1, akl_answer_length(got), stdout);
            printf("\n");
            break;
        case AKL_ANSWER_TOO_LONG:
            printf("answer long\n");
            break;
        case AKL_NO_ANSWER:
            return;
        default:
            unexpected("akl_answer", akl_answer_refusal(got));
        }
    }
}

static void print_state(struct host *h) {
    static const char *const names[] = {"failed", "final", "open"};
    size_t got = akl_state(h->store, sizeof h->store, h->work, sizeof h->work);

    if (akl_state_refusal(got) != AKL_ACCEPTED)
        unexpected("akl_state", akl_state_refusal(got));
    printf("state %s\n", names[akl_state_of(got)]);
}

/* The record: "1 to 7 of the program before those of the query, then 1 and 18 of the whole steps text .., then the others". */
static void print_record(struct host *h) {
    size_t begun, judged, got;

    begun = akl_start(h->program.bytes, h->program.length, h->query.bytes, h->query.length, h->store, sizeof h->store, h->work,
                      sizeof h->work);
    if (begun >= AKL_TOO_LONG && begun <= AKL_TWO_OPERATORS) {
        two_lines(0, begun);
        return;
    }
    /* 1 and 18 of the steps come before 15 of the start, so the text is judged alone: with no store a text as described gives 8. */
    judged = akl_run_refusal(akl_run(h->steps.bytes, h->steps.length, NULL, 0, NULL, 0));
    if (judged != AKL_TOO_SHORT) {
        two_lines(0, judged);
        return;
    }
    if (begun != AKL_ACCEPTED) {
        two_lines(0, begun);
        return;
    }
    got = akl_run(h->steps.bytes, h->steps.length, h->store, sizeof h->store, h->work, sizeof h->work);
    two_lines(akl_run_accepted(got), akl_run_refusal(got));
    print_answers(h);
    print_state(h);
}

static void *check(void *h) {
    print_record(h);
    return NULL;
}

/*
 * The calls are made on a thread with a stack of its own: where there is no memory for it, or the shell allows little (ulimit -s),
 * that is told before a call needs it.
 */
static void on_thread(struct host *h) {
    pthread_attr_t room;
    pthread_t thread;

    if ((errno = pthread_attr_init(&room)) != 0 || (errno = pthread_attr_setstacksize(&room, AKL_STACK_BYTES)) != 0 ||
        (errno = pthread_create(&thread, &room, check, h)) != 0)
        stop("no memory for a thread", "");
    pthread_join(thread, NULL);
    pthread_attr_destroy(&room);
}

int main(int count, char **arguments) {
    struct host *h;
    DIR *folder;

    if (count != 2) {
        fprintf(stderr, "usage: example DIR, where DIR is a folder with rules.akl, query.akl and steps.txt\n");
        return 2;
    }
    folder = opendir(arguments[1]);
    if (folder == NULL) {
        fprintf(stderr, "example: cannot open the folder %s: %s\n", arguments[1], strerror(errno));
        return 2;
    }
    closedir(folder);
    h = malloc(sizeof *h);
    if (h == NULL)
        stop("no memory", "");
    load(&h->program, arguments[1], "rules.akl");
    load(&h->query, arguments[1], "query.akl");
    load(&h->steps, arguments[1], "steps.txt");
    on_thread(h);
    free(h);
    if (fflush(stdout) != 0 || ferror(stdout))
        stop("cannot write the record", "");
    return 0;
}
