/* The risk desk for C and C++: Linux on x86-64.
 *
 * Link libriskdesk.a: `tools/build-library` writes it to target/staticlib, `tools/install PREFIX`
 * to PREFIX/lib with a pkg-config file. It needs memcpy and memset, nothing else.
 *
 *     riskdesk_study study = riskdesk_fresh();
 *     riskdesk_answer answer = riskdesk_feed(&study, bytes, length);    as often as there are pieces
 *     riskdesk_totals_report totals = riskdesk_totals(study);
 *     if (totals.number != RISKDESK_TAKEN) ...                          no figures, but a refusal
 *
 * What holds of every call:
 * - It answers with a number and a place, whatever the bytes are. Number 0 is taken; every other
 *   one is a refusal. Look at the number first: where it is not 0, all figures beside it are 0 and
 *   mean nothing.
 * - No figure is given before the closing record has been read and agrees with the study.
 * - A study that was refused with 1 to 6 stays refused: every later call on it, an empty piece
 *   included, gives the same number and place. Start again with riskdesk_fresh.
 * - A refused call writes nothing in the list that you lend.
 * - It allocates nothing, takes no lock, and has no global state: all that is kept stands in the
 *   study that you hold. Calls on different studies are independent, also in different threads. Calls
 *   on one study by several threads are yours to keep apart where one of them is riskdesk_feed.
 *
 * What is asked of you:
 * - A study comes from riskdesk_fresh and is changed by riskdesk_feed alone. It may be copied, as any
 *   struct; a copy goes its own way. It is no form to store: another layout cannot read it.
 * - A pointer is not null, also where the length beside it is 0. It is aligned for its type and points
 *   at as many elements as the length says, at most PTRDIFF_MAX bytes. Bytes do not overlap the study.
 * - riskdesk_layout() is RISKDESK_LAYOUT; compare them once, before the first study.
 *
 * In the repository docs/FORMAT.md describes the bytes of a study, docs/RULES.md what is refused and what
 * the figures mean.
 *
 * The answers and figures are proved of the archive's code (crates/riskdesk), on these conditions. That
 * the structs below have its layout is tested (tools/try-library).
 */
#ifndef RISKDESK_H
#define RISKDESK_H

#ifndef __cplusplus
#include <stdbool.h>
#endif
#include <stddef.h>
#include <stdint.h>

/* The version of the structs below. An archive with another one must not be called. */
#define RISKDESK_LAYOUT 1

/* The numbers that a call answers with. Places count bytes of the study, from 0 on. */
enum riskdesk_number {
    /* Taken. The place is the number of bytes read so far. */
    RISKDESK_TAKEN = 0,
    /* 1 to 6 are kept; the place is that of the refused record's first byte. */
    RISKDESK_UNKNOWN_KIND = 1,    /* no kind of record has this first byte */
    RISKDESK_ORDER = 2,           /* a record that the order does not allow here */
    RISKDESK_FIELD = 3,           /* a field outside its bounds */
    RISKDESK_NUMBERING = 4,       /* a target or scenario number breaks its rule */
    RISKDESK_TOO_MANY = 5,        /* one target, scenario, record or level of a tree too many */
    RISKDESK_CLOSING_DIFFERS = 6, /* the closing record's count or sum differs from what was read */
    /* Not kept: the study is closed, its reports stand. The place is the closed study's length. */
    RISKDESK_AFTER_CLOSING = 7,   /* bytes after the closing record */
    /* 8 to 10 answer reports and are not kept; the place is the number of bytes read so far. */
    RISKDESK_NOT_CLOSED = 8,      /* a report was asked before the closing record */
    RISKDESK_NO_SUCH_TARGET = 9,  /* the study has no target of this number */
    RISKDESK_LIST_TOO_SHORT = 10  /* the lent list is shorter than the domino list */
};

/* The kinds of records: the first byte of each. */
enum riskdesk_record {
    RISKDESK_RECORD_OPENING = 1,
    RISKDESK_RECORD_TARGET = 2,
    RISKDESK_RECORD_LEAK = 3,
    RISKDESK_RECORD_BRANCHING = 4,
    RISKDESK_RECORD_OUTCOME = 5,
    RISKDESK_RECORD_EFFECT = 6,
    RISKDESK_RECORD_CLOSING = 7,
    RISKDESK_RECORD_TIMED_EFFECT = 8,    /* an effect with a last byte, enum riskdesk_unit */
    RISKDESK_RECORD_CURVE_BRANCHING = 10 /* by an ignition curve; the rate in tenths of a gram per second */
};

/* The units of a duration: the last byte of a timed effect. Effects of kind 6 are in seconds. */
enum riskdesk_unit {
    RISKDESK_UNIT_SECONDS = 0,
    RISKDESK_UNIT_TENTHS = 1 /* tenths of a second */
};

/* The classes of targets. */
enum riskdesk_class {
    RISKDESK_CLASS_PEOPLE = 0,      /* a place of people; all others are equipment */
    RISKDESK_CLASS_ATMOSPHERIC = 1, /* a vessel at atmospheric pressure */
    RISKDESK_CLASS_PRESSURISED = 2, /* a vessel under pressure */
    RISKDESK_CLASS_TOWER = 3,
    RISKDESK_CLASS_MACHINE = 4,     /* a pump, compressor or exchanger */
    RISKDESK_CLASS_PIPE = 5
};

/* The settings of a place of people; equipment has 0. */
enum riskdesk_setting {
    RISKDESK_SETTING_INDIVIDUAL = 0, /* individual risk */
    RISKDESK_SETTING_OUTDOORS = 1,   /* social risk outdoors */
    RISKDESK_SETTING_INDOORS = 2     /* social risk indoors */
};

/* The kinds of outcomes. */
enum riskdesk_outcome {
    RISKDESK_OUTCOME_NO_EFFECT = 0,
    RISKDESK_OUTCOME_POOL_FIRE = 1,
    RISKDESK_OUTCOME_JET_FIRE = 2,
    RISKDESK_OUTCOME_FIREBALL = 3,
    RISKDESK_OUTCOME_FLASH_FIRE = 4,
    RISKDESK_OUTCOME_EXPLOSION = 5
};

/* The bounds of a study. */
#define RISKDESK_MOST_TARGETS 256          /* a domino list of so many numbers is always long enough */
#define RISKDESK_MOST_SCENARIOS 65536
#define RISKDESK_MOST_RECORDS 1000000
#define RISKDESK_MOST_ABOVE 7              /* branchings above a branching */
#define RISKDESK_MOST_EFFECTS 256          /* of one outcome */
#define RISKDESK_MOST_VOLUME 100000        /* m3 */
#define RISKDESK_MOST_CHANCE 1000000       /* millionths */
#define RISKDESK_MOST_CURVE 13             /* ignition curves, numbered from 1 on */
#define RISKDESK_LEAST_FREQUENCY 1         /* 10^-13 per year, as every frequency and sum here */
#define RISKDESK_MOST_FREQUENCY UINT64_C(10000000000000)
#define RISKDESK_KINDS 6                   /* kinds of outcomes */

/* A study being read. Its words have no meaning outside the desk: ask by the calls below. */
#define RISKDESK_STUDY_SIZE 5352
typedef struct riskdesk_study {
    uint64_t opaque[RISKDESK_STUDY_SIZE / 8];
} riskdesk_study;

/* The answer to a piece. */
typedef struct riskdesk_answer {
    uint8_t number; /* enum riskdesk_number */
    uint64_t place;
} riskdesk_answer;

/* The report of the whole study. */
typedef struct riskdesk_totals_report {
    uint8_t number;                 /* enum riskdesk_number; not 0: no figures */
    uint64_t place;
    uint32_t study;                 /* the study's number, from its opening record */
    uint32_t records;               /* records, the opening and the closing one included */
    uint64_t leaks;                 /* sum of the leak frequencies */
    uint64_t kinds[RISKDESK_KINDS]; /* total frequency by enum riskdesk_outcome; they add up to leaks */
    uint32_t unjudged;              /* effects that no rule judged */
    uint16_t targets;               /* targets; they are numbered from 0 on */
} riskdesk_totals_report;

/* The report of one target. */
typedef struct riskdesk_target_report {
    uint8_t number;       /* enum riskdesk_number; not 0: no figures */
    uint64_t place;
    uint64_t sum;         /* frequency of death or damage */
    uint32_t margin;      /* the exact sum differs by less than this; 0: no effect names the target */
    uint8_t target_class; /* enum riskdesk_class */
    uint8_t grade;        /* 0 to 6, 6 the worst; of a place of people, else 0 */
    bool listed;          /* on the domino list; of equipment, else false */
} riskdesk_target_report;

/* The report of the domino list. */
typedef struct riskdesk_domino_report {
    uint8_t number; /* enum riskdesk_number; not 0: nothing was written */
    uint64_t place;
    size_t count;   /* numbers written to the front of the lent list */
} riskdesk_domino_report;

#if defined(__cplusplus)
#define RISKDESK_SIZE(type, size) static_assert(sizeof(type) == (size), "the size of " #type)
#elif defined(__STDC_VERSION__) && __STDC_VERSION__ >= 201112L
#define RISKDESK_SIZE(type, size) _Static_assert(sizeof(type) == (size), "the size of " #type)
#else
#define RISKDESK_SIZE(type, size) typedef char type##_has_its_size[sizeof(type) == (size) ? 1 : -1]
#endif
RISKDESK_SIZE(riskdesk_study, RISKDESK_STUDY_SIZE);
RISKDESK_SIZE(riskdesk_answer, 16);
RISKDESK_SIZE(riskdesk_totals_report, 88);
RISKDESK_SIZE(riskdesk_target_report, 32);
RISKDESK_SIZE(riskdesk_domino_report, 24);
#undef RISKDESK_SIZE

#ifdef __cplusplus
extern "C" {
#endif

/* The layout of the archive that is linked: RISKDESK_LAYOUT, or this header is not the archive's. */
uint32_t riskdesk_layout(void);

/* A study of which nothing is read yet. */
riskdesk_study riskdesk_fresh(void);

/* Reads the next piece of the study, `length` bytes, in place. Pieces may be cut anywhere and may be
 * empty; where they are cut changes no answer of a report. The first of these that holds decides:
 * - a refusal from 1 to 6 is kept: its number and place, and nothing is read;
 * - a record of this piece, or one that it completes, is refused: 1 to 6 and the place of the record's
 *   first byte, kept from now on. 1 is given at the first byte, the others at the record's last one;
 *   of several faults of one record the first of 1, 2, 5, 3, 4, 6 is given;
 * - the piece has bytes after the closing record, which this or an earlier piece brought: 7 and the closed
 *   study's length. These bytes are neither read nor counted, and the report stands. The 7 is not kept:
 *   no later call tells of it;
 * - else 0 and the number of bytes read so far. An empty piece changes nothing. */
riskdesk_answer riskdesk_feed(riskdesk_study *study, const uint8_t *bytes, size_t length);

/* The totals of the study. A kept refusal; else 8 and the number of bytes read so far, if the closing
 * record has not been read; else 0, the closed study's length and the figures. */
riskdesk_totals_report riskdesk_totals(riskdesk_study study);

/* The report of target number `target`. A kept refusal; else 8 as above; else 9 and the closed study's
 * length, if `target` is not below the totals' targets; else 0, the same place and the figures. */
riskdesk_target_report riskdesk_target(riskdesk_study study, uint16_t target);

/* The domino list: the equipment that a leak may damage so that a second accident follows, by number,
 * rising, written to the front of a list of `length` numbers. A kept refusal; else 8 as above; else
 * 10 and the closed study's length, if the domino list is longer than `length`; else 0, the same place
 * and how many numbers were written. The numbers after them, and a refused call's whole list, stay as
 * they were. */
riskdesk_domino_report riskdesk_domino(riskdesk_study study, uint16_t *list, size_t length);

#ifdef __cplusplus
}
#endif
#endif
