/* Prints the report of a study, from C (or C++).
 *
 *     cc examples/c/report.c -Iinclude target/staticlib/libriskdesk.a -o report
 *     ./report [--pieces LENGTH] [FILE]
 *
 * Without FILE, or with `-`, the study comes from standard input. It is read in pieces of LENGTH bytes,
 * 1 to 1048576; the text is the same for each. Status 0 reported, 1 refused, 2 not read, not written or
 * wrongly called. */
#include "riskdesk.h"

#include <errno.h>
#include <inttypes.h>
#include <stdio.h>
#include <stdlib.h>
#include <string.h>

enum { REPORTED = 0, REFUSED = 1, FAILED = 2 };

static uint8_t piece[1 << 20];

static int usage(void) {
    fprintf(stderr, "usage: report [--pieces LENGTH] [FILE]\n"
                    "LENGTH: 1 to %zu bytes; without FILE, or with -, standard input is read\n",
            sizeof piece);
    return FAILED;
}

static int failed(const char *what) {
    fprintf(stderr, "report: %s: %s\n", what, strerror(errno));
    return FAILED;
}

static int refused(uint8_t number, uint64_t place) {
    printf("refused %u at %" PRIu64 "\n", (unsigned)number, place);
    return REFUSED;
}

/* A target's line: `sum S margin M`, then the grade of people or the mark of listed equipment. */
static void print_target(unsigned number, const riskdesk_target_report *target) {
    printf("target %u sum %" PRIu64 " margin %" PRIu32, number, target->sum, target->margin);
    if (target->target_class == RISKDESK_CLASS_PEOPLE)
        printf(" grade %u", (unsigned)target->grade);
    else if (target->listed)
        printf(" domino");
    printf("\n");
}

/* Prints the report, or why there is none. */
static int print_report(const riskdesk_study *study) {
    riskdesk_totals_report totals = riskdesk_totals(*study);
    if (totals.number != RISKDESK_TAKEN)
        return refused(totals.number, totals.place);
    printf("study %" PRIu32 " records %" PRIu32 " leaks %" PRIu64 "\n", totals.study, totals.records,
           totals.leaks);
    for (unsigned kind = 0; kind < RISKDESK_KINDS; kind++)
        printf("kind %u %" PRIu64 "\n", kind, totals.kinds[kind]);
    for (unsigned number = 0; number < totals.targets; number++) {
        /* Below totals.targets no number is refused. */
        riskdesk_target_report target = riskdesk_target(*study, (uint16_t)number);
        print_target(number, &target);
    }
    printf("unjudged %" PRIu32 "\n", totals.unjudged);
    return REPORTED;
}

/* Reads the study to its end, or to the first refusal, and prints what is to be said. */
static int report(FILE *file, const char *name, size_t length) {
    riskdesk_study study = riskdesk_fresh();
    size_t got;
    while ((got = fread(piece, 1, length, file)) > 0) {
        riskdesk_answer answer = riskdesk_feed(&study, piece, got);
        if (answer.number != RISKDESK_TAKEN)
            return refused(answer.number, answer.place);
    }
    if (ferror(file))
        return failed(name);
    return print_report(&study);
}

/* A whole number from 1 to the greatest length of a piece; 0 for any other word. */
static size_t piece_length(const char *word) {
    char *end;
    if (*word < '0' || *word > '9')
        return 0;
    errno = 0;
    unsigned long length = strtoul(word, &end, 10);
    return *end != '\0' || errno != 0 || length > sizeof piece ? 0 : length;
}

int main(int count, char **words) {
    size_t length = 65536;
    int at = 1;
    if (at < count && strcmp(words[at], "--pieces") == 0) {
        length = at + 1 < count ? piece_length(words[at + 1]) : 0;
        at += 2;
    }
    if (length == 0 || count > at + 1 || (at < count && strncmp(words[at], "--", 2) == 0))
        return usage();
    if (riskdesk_layout() != RISKDESK_LAYOUT) {
        fprintf(stderr, "report: riskdesk.h is not the header of the archive that was linked\n");
        return FAILED;
    }
    FILE *file = stdin;
    const char *name = "standard input";
    if (at < count && strcmp(words[at], "-") != 0) {
        name = words[at];
        file = fopen(name, "rb");
        if (file == NULL)
            return failed(name);
    }
    int status = report(file, name, length);
    if (status != FAILED && (fflush(stdout) != 0 || ferror(stdout)))
        return failed("standard output");
    return status;
}
