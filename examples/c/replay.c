/* Answers lists of calls on a study, one line a call, as the program replay does (docs/REPLAY.md), from C
 * (or C++). It shows every call of the library, refused ones too.
 *
 *     cc examples/c/replay.c -Iinclude target/staticlib/libriskdesk.a -o replay
 *     ./replay [LIST..] < LIST
 *
 * The list on standard input is answered first, then those in the named files, each on a fresh study.
 * Status 0 answered, 2 not read or not written. */
#include "riskdesk.h"

#include <errno.h>
#include <inttypes.h>
#include <stdio.h>
#include <string.h>

enum { MOST_NUMBERS = 300, BEFORE = 65535 };

static void print_answer(const char *call, uint8_t number, uint64_t place) {
    printf("%s %u at %" PRIu64, call, (unsigned)number, place);
}

static void totals(const riskdesk_study *study) {
    riskdesk_totals_report r = riskdesk_totals(*study);
    print_answer("totals", r.number, r.place);
    if (r.number == RISKDESK_TAKEN) {
        printf(" study %" PRIu32 " records %" PRIu32 " leaks %" PRIu64 " kinds", r.study, r.records, r.leaks);
        for (int kind = 0; kind < RISKDESK_KINDS; kind++)
            printf(" %" PRIu64, r.kinds[kind]);
        printf(" unjudged %" PRIu32, r.unjudged);
    }
    printf("\n");
}

static void target(const riskdesk_study *study, uint16_t number) {
    riskdesk_target_report r = riskdesk_target(*study, number);
    print_answer("target", r.number, r.place);
    if (r.number == RISKDESK_TAKEN) {
        printf(" sum %" PRIu64 " margin %" PRIu32, r.sum, r.margin);
        if (r.target_class == RISKDESK_CLASS_PEOPLE)
            printf(" grade %u", (unsigned)r.grade);
        else if (r.listed)
            printf(" domino");
    }
    printf("\n");
}

static void domino(const riskdesk_study *study, size_t length) {
    uint16_t lent[MOST_NUMBERS];
    for (size_t i = 0; i < MOST_NUMBERS; i++)
        lent[i] = BEFORE;
    riskdesk_domino_report r = riskdesk_domino(*study, lent, length);
    print_answer("domino", r.number, r.place);
    if (r.number == RISKDESK_TAKEN)
        printf(" count %zu", r.count);
    printf(" lent");
    for (size_t i = 0; i < length; i++)
        printf(" %u", (unsigned)lent[i]);
    printf("\n");
}

/* The piece of `length` bytes that follows in the list; false where the list is too short. */
static bool piece(riskdesk_study *study, FILE *list, size_t length) {
    static uint8_t bytes[65535];
    if (fread(bytes, 1, length, list) != length)
        return false;
    riskdesk_answer answer = riskdesk_feed(study, bytes, length);
    print_answer("piece", answer.number, answer.place);
    printf("\n");
    return true;
}

/* A call that begins with `letter`; false where the list has no such call. */
static bool call(riskdesk_study *study, FILE *list, int letter) {
    uint8_t two[2];
    if (letter == 't') {
        totals(study);
        return true;
    }
    if (strchr("pgd", letter) == NULL || fread(two, 1, 2, list) != 2)
        return false;
    uint16_t number = (uint16_t)(two[0] * 256 + two[1]);
    if (letter == 'p')
        return piece(study, list, number);
    if (letter == 'd' && number > MOST_NUMBERS)
        return false;
    if (letter == 'd')
        domino(study, number);
    else
        target(study, number);
    return true;
}

/* Answers the calls of a list; false where it could not be read. */
static bool replay(FILE *list) {
    riskdesk_study study = riskdesk_fresh();
    int letter;
    while ((letter = getc(list)) != EOF) {
        if (letter == 0 || !call(&study, list, letter)) {
            if (!ferror(list))
                printf("bad call\n");
            break;
        }
    }
    return !ferror(list);
}

static bool replay_file(const char *name) {
    FILE *list = fopen(name, "rb");
    if (list == NULL)
        return false;
    printf("list %s\n", name);
    bool read = replay(list);
    return fclose(list) == 0 && read;
}

static int failed(const char *what) {
    fprintf(stderr, "replay: %s: %s\n", what, strerror(errno));
    return 2;
}

int main(int count, char **words) {
    if (riskdesk_layout() != RISKDESK_LAYOUT) {
        fprintf(stderr, "replay: riskdesk.h is not the header of the archive that was linked\n");
        return 2;
    }
    if (!replay(stdin))
        return failed("standard input");
    for (int i = 1; i < count; i++)
        if (!replay_file(words[i]))
            return failed(words[i]);
    if (fflush(stdout) != 0 || ferror(stdout))
        return failed("standard output");
    return 0;
}
