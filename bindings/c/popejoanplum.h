/* Popejoanplum: the score engine for hosts in C and C++ on x86-64 Linux. Link libpopejoanplum.a, which `rt lib` in crates/popejoanplum writes into
 * its out/; of the C library it takes memcpy and memset, and nothing else.
 *
 * Every function of the archive is proved: it ends, reads and writes nothing outside the memory that is lent to it, and gives the value that its
 * definition says (crates/popejoanplum). That holds for every byte, number and length that a caller passes, a board that no build made included.
 * pjp_copy_breaks, below, is plain C of this header and not proved.
 *
 * What a caller owes, as C cannot be held to it:
 *   - each pointer is valid for as many elements as the length behind it says; (NULL, 0) is fine;
 *   - a board, a start table, breaks, plays and outcomes are aligned to 8 bytes, as arrays of their types are;
 *   - no two of the slices of one call overlap;
 *   - nobody else writes to a slice during a call.
 * The functions keep no state and allocate nothing, so threads may call them at once on memory of their own.
 *
 * docs/FORMAT.md has the map file by offsets, every refusal, the order of the checks, and the board's words. In short, a map file is a run of records
 * without padding, numbers little-endian, each with a mark of two ASCII letters: MH once (hp, od, cs as floats), any BR (start, end as doubles), any
 * objects (CI: start; SL: start, count uint16_t, that many bytes of 0 tick, 1 repeat, 2 tail, the last one the only tail; SP: start, duration), any PL
 * (plays).
 */
#ifndef POPEJOANPLUM_H
#define POPEJOANPLUM_H

#include <stddef.h>
#include <stdint.h>
#include <string.h>

#ifdef __cplusplus
extern "C" {
#endif

/* ---- status: 0, or why a call was refused. The first check that fails stands; each function says in which order it checks. No call gives 10, and it
 * stays free: document 01 gave it for a max combo above 46,341, which request 3 of document 02 admits. */
#define PJP_GOOD 0
#define PJP_CUT 2           /* the input ends inside a record, or one byte is left for a mark */
#define PJP_MARK 3          /* a mark is unknown or out of order, or the input is empty; in an edit also bytes behind the record */
#define PJP_RANGE 4         /* a time, setting or duration is not finite or out of range; in a read also a break without its end */
#define PJP_NESTED 5        /* a slider's nested list is wrong: no item, no tail at its end, or a tail before it */
#define PJP_COUNT 6         /* a 129th break, an 8,193rd object, or more than 1,000 nested items */
#define PJP_BONUS 7         /* the legacy bonus of all objects is above 2,147,483,647 */
#define PJP_PLAY_FIELD 8    /* a field of a play is out of range */
#define PJP_PLAY_EXCEEDS 9  /* a play exceeds its map: judgements, max combo, or with origin 1 its slider end or large tick hits */
#define PJP_ROOM 11         /* too few words for the board, or too few numbers in the start table */
#define PJP_PLACE 12        /* the edited place is not below the object count */
#define PJP_BOARD 13        /* a word of the board or a start that the call reads is out of its limits: no build made them */
#define PJP_FACTOR 14       /* a factor is not from 0 to 10, or not finite; only the two calls with factors */
#define PJP_HEAT 15         /* a heat has more than PJP_HEAT_PLAYS plays, or fewer outcomes than plays */
#define PJP_NO_PLAY 255     /* only pjp_score_play_at: the file is accepted and has no play at that index */

/* ---- a play's origin */
#define PJP_STABLE 0
#define PJP_WITH_SLIDER_ACC 1
#define PJP_WITHOUT_SLIDER_ACC 2

/* ---- a play's flags; higher bits are refused */
#define PJP_NF 0x001
#define PJP_EZ 0x002
#define PJP_HD 0x004
#define PJP_HR 0x008
#define PJP_FL 0x010
#define PJP_SO 0x020
#define PJP_RX 0x040
#define PJP_AP 0x080
#define PJP_SV2 0x100

/* ---- limits of a map */
#define PJP_MAX_BREAKS 128
#define PJP_MAX_OBJECTS 8192

/* ---- the most plays of a heat */
#define PJP_HEAT_PLAYS 64

/* What a call that writes answers. */
typedef struct {
    uint8_t status; /* PJP_GOOD or the refusal */
    size_t offset;  /* of the refused record's mark in the file; 0 for a missing header, for PJP_ROOM, PJP_HEAT and every refusal of an edit */
} pjp_status;

/* The settings of a map, each from 0 to 12. */
typedef struct {
    float hp; /* HP drain rate */
    float od; /* overall difficulty */
    float cs; /* circle size */
} pjp_settings;

/* A play. */
typedef struct {
    double clock_rate;        /* above 0 and at most 100; 1 is the map's own speed */
    uint32_t max_combo;       /* the play's highest combo */
    uint32_t large_tick_hits; /* with origin 1 at most ticks and repeats; not used with origin 0 */
    uint32_t small_tick_hits; /* used with origin 2 alone */
    uint32_t slider_end_hits; /* with origin 1 at most sliders; not used with the others */
    uint32_t score;           /* the legacy total score; 0 where has_score is 0 */
    uint16_t passed_objects;  /* the play is on the map's first objects: this many, or all if the map has fewer */
    uint16_t n300;            /* the four judgements together are at most the passed objects */
    uint16_t n100;
    uint16_t n50;
    uint16_t misses;
    uint16_t flags;    /* PJP_NF to PJP_SV2 */
    uint8_t origin;    /* PJP_STABLE, PJP_WITH_SLIDER_ACC or PJP_WITHOUT_SLIDER_ACC */
    uint8_t has_score; /* 1 if score is there, else 0 */
} pjp_play;

/* ScoreV1 of a map's first objects. */
typedef struct {
    uint64_t object_count;             /* how many objects: all, or those that the play passed */
    uint64_t multiplier;               /* the score multiplier of the settings, the drain and the objects, 0 to 7 (ruleset::score_multiplier) */
    uint64_t accuracy_score;           /* points of the hits */
    uint64_t combo_score;              /* points of the combo, the multiplier in them */
    uint64_t legacy_bonus_score;       /* the spinners' bonus points in ScoreV1 .. */
    uint64_t standardised_bonus_score; /* .. and in standardised score */
    double bonus_score_ratio;          /* standardised / legacy, 0 if legacy is 0 */
    double nested_score_per_object;    /* points of nested items and spins / object_count: with no object not a number, or an infinity where a board
                                        * that no build made has points without an object */
    uint32_t max_combo;                /* the highest combo that the objects give */
    uint32_t n_circles;
    uint32_t n_sliders;
    uint32_t n_spinners;
    uint32_t n_repeats;
    uint32_t n_ticks;
} pjp_attributes;

/* How many notes a play missed. */
typedef struct {
    double accuracy;         /* judgements, and slider hits as the origin counts them, over the most that they can be; 0 where that is 0 */
    double combo_based;      /* misses as estimated from the combo */
    double score_based;      /* misses as estimated from the score; 0 where has_score_based is 0 */
    double effective;        /* the estimate to use: from the misses to the judgements (estimates/proofs/Range) */
    uint8_t has_score_based; /* 1 if score_based is there: a score, an origin other than 1, and at least one judgement */
} pjp_estimates;

/* The two top-weighted slider factors, of aim and of speed: each from 0 to 10. They are no part of a map file and come with the call. */
typedef struct {
    double aim;
    double speed;
} pjp_slider_factors;

/* How many sliders a play broke, as estimated from the effective misses by each factor: from 0 to n100 (slider_breaks/proofs/Range), and 0 where
 * effective is at most 1, with origin 1 and without a 100. It may be not a number where a board that no build made has judgements and no combo. */
typedef struct {
    double aim;
    double speed;
} pjp_slider_breaks;

/* What a map file holds. Where the status is not 0 every value is 0. */
typedef struct {
    uint8_t status;
    size_t offset; /* of the refused record's mark; 0 for a missing header */
    pjp_settings settings;
    uint64_t breaks;  /* how many BR records */
    uint64_t objects; /* how many object records: a board's count */
} pjp_map_info;

/* The score of a map. Where the status is not 0 every value is 0. */
typedef struct {
    uint8_t status;
    size_t offset; /* of the refused record's mark; 0 for a missing header */
    pjp_attributes attributes;
} pjp_map_answer;

/* The score of a play. Where the status is not 0 every value is 0. */
typedef struct {
    uint8_t status;
    size_t offset; /* of the refused record's mark; 0 for a missing header, for a play that is given beside the file, and for a read */
    pjp_attributes attributes; /* of the passed objects */
    pjp_estimates estimates;
} pjp_play_answer;

/* The score of a play, as pjp_play_answer has it, and its slider breaks. Where the status is not 0 every value is 0. */
typedef struct {
    uint8_t status;
    size_t offset;
    pjp_attributes attributes;
    pjp_estimates estimates;
    pjp_slider_breaks slider_breaks;
} pjp_breaks_answer;

/* How many words a board for that many objects has: 26 times the smallest power of two that is not below it, 26 at least. 0 above PJP_MAX_OBJECTS,
 * where no map is accepted. */
size_t pjp_board_words(size_t count);

/* Reads a map file and counts. Refuses what is wrong with its records, PJP_CUT to PJP_PLAY_FIELD, in their order; whether its plays exceed the map
 * (PJP_PLAY_EXCEEDS) is checked by the calls below. */
pjp_map_info pjp_read_map(const uint8_t *file, size_t length);

/* The score of all objects of a map file. Refuses a file that breaks a rule, PJP_CUT to PJP_PLAY_EXCEEDS, its plays included; so do the next five. */
pjp_map_answer pjp_score_map(const uint8_t *file, size_t length);

/* The score of a play that is given beside a map file. Behind the whole file, with offset 0: PJP_PLAY_FIELD if a field of the play is out of range
 * (flags, clock rate, origin, has_score, a score without has_score), then PJP_PLAY_EXCEEDS. */
pjp_play_answer pjp_score_play(const uint8_t *file, size_t length, pjp_play play);

/* What pjp_score_play gives, and the slider breaks by two factors. Refuses what pjp_score_play refuses, then with offset 0 PJP_FACTOR. */
pjp_breaks_answer pjp_score_play_breaks(const uint8_t *file, size_t length, pjp_play play, pjp_slider_factors factors);

/* The score of the play at an index of a map file, from 0 in the order of its PL records; PJP_NO_PLAY if it has fewer. */
pjp_play_answer pjp_score_play_at(const uint8_t *file, size_t length, uint64_t index);

/* The scores of a heat: of up to PJP_HEAT_PLAYS plays on the map of a file. For each i below `count` outcomes[i] gets what pjp_score_play
 * gives for plays[i]. A refused play refuses no heat: its outcome has the number, offset 0 and no values, and the plays behind it are scored. `room` is
 * how many outcomes are lent; those from `count` on stay as they were. Behind the whole file, with offset 0: PJP_HEAT if `count` is above
 * PJP_HEAT_PLAYS or `room` below `count`. A refused heat writes nothing; one without plays is good and writes nothing. What stands between the fields of
 * an outcome that is written is not said. */
pjp_status pjp_heat(const uint8_t *file, size_t length, const pjp_play *plays, size_t count, pjp_play_answer *outcomes, size_t room);

/* Writes the board and the start table of a map file. `words` is at least pjp_board_words(objects) and `numbers` at least the map's objects
 * (pjp_read_map tells them), else PJP_ROOM, which is checked behind the file. What lies behind these stays as it was. A refused build writes
 * nothing. */
pjp_status pjp_build(const uint8_t *file, size_t length, uint64_t *board, size_t words, double *starts, size_t numbers);

/* Puts the object of a record (CI, SL or SP, from its mark on, and nothing behind it) at a place of a board for `count` objects, and its start into
 * the start table. Refuses with offset 0: PJP_COUNT, PJP_ROOM, PJP_PLACE, then what is wrong with the record, in this order: PJP_MARK if it is empty,
 * PJP_CUT if it has one byte, PJP_MARK for another mark, PJP_CUT for what comes before a list, PJP_RANGE for times, PJP_COUNT for the nested items,
 * PJP_CUT for their list, PJP_NESTED, and last PJP_MARK for bytes behind it; then PJP_BOARD or PJP_BONUS by the words that it reads. On a board that a
 * build made and only edits changed, with the map's count, it succeeds exactly when the map with that object in place is accepted. A refused edit
 * writes nothing. */
pjp_status pjp_edit(
    uint64_t *board, size_t words, double *starts, size_t numbers, size_t count, size_t place, const uint8_t *record, size_t length);

/* The score of a play on the first objects of a board for `count` objects. `settings` are the map's, `breaks` the start and the end of each of its
 * breaks in turn, so `times` is twice the breaks (pjp_copy_breaks). On a board that a build made and only edits changed, with the map's count, it is
 * what pjp_score_play gives for the map as the edits left it, in a few steps. Refuses with offset 0: PJP_COUNT, PJP_ROOM, PJP_RANGE for settings and
 * breaks, PJP_PLAY_FIELD, PJP_BOARD or PJP_BONUS by what it reads, PJP_PLAY_EXCEEDS. It writes nothing. */
pjp_play_answer pjp_read(
    const uint64_t *board,
    size_t words,
    const double *starts,
    size_t numbers,
    size_t count,
    pjp_settings settings,
    const double *breaks,
    size_t times,
    pjp_play play);

/* What pjp_read gives, and the slider breaks by two factors. Refuses what pjp_read refuses, then PJP_FACTOR. It writes nothing. */
pjp_breaks_answer pjp_read_breaks(
    const uint64_t *board,
    size_t words,
    const double *starts,
    size_t numbers,
    size_t count,
    pjp_settings settings,
    const double *breaks,
    size_t times,
    pjp_play play,
    pjp_slider_factors factors);

/* Copies the start and the end of each break of an ACCEPTED map file to `times`, which has room for twice `breaks`, the number that pjp_read_map told
 * of that file: the header takes 14 bytes, each break 18, of which 2 are its mark. Of another file it may read past the end. It is not of the archive
 * and not proved. The machines that the archive is for are little-endian, as the file is. */
static inline void pjp_copy_breaks(const uint8_t *file, uint64_t breaks, double *times) {
    uint64_t i;
    for (i = 0; i < breaks; i++)
        memcpy(times + 2 * i, file + 14 + 18 * i + 2, 2 * sizeof *times);
}

#ifdef __cplusplus
}
#endif

#endif
