/* Document 01's worked example on a board: built, read, edited, read again, and what is refused; then a heat on its file. expected.txt has what it
 * prints. */
#include "popejoanplum.h"
#include <inttypes.h>
#include <stdio.h>
#include <string.h>

enum { OBJECTS = 3, WORDS = 104 }; /* 26 words for each place of the next power of two, 4 */

static uint8_t file[64], *end = file;

static void put(const void *bytes, size_t length) {
    memcpy(end, bytes, length);
    end += length;
}

/* Settings 5; a circle, a slider of tick, repeat, tick and tail, a circle. Numbers stand as this machine has them: little-endian. */
static void put_map(void) {
    static const float five = 5;
    static const double starts[OBJECTS] = {0, 5000, 10000};
    static const uint16_t count = 4;
    static const uint8_t nested[4] = {0, 1, 0, 2};
    put("MH", 2), put(&five, 4), put(&five, 4), put(&five, 4);
    put("CI", 2), put(&starts[0], 8);
    put("SL", 2), put(&starts[1], 8), put(&count, 2), put(nested, 4);
    put("CI", 2), put(&starts[2], 8);
}

/* The record of a spinner. */
static void put_spinner(uint8_t record[18], double start, double duration) {
    memcpy(record, "SP", 2);
    memcpy(record + 2, &start, 8);
    memcpy(record + 10, &duration, 8);
}

/* A float's bits, as document 01 prints them. */
static uint64_t bits(double value) {
    uint64_t word;
    memcpy(&word, &value, 8);
    return word;
}

static void print_status(const char *call, pjp_status answer) {
    printf("%s: status %d, offset %zu\n", call, answer.status, answer.offset);
}

static void print_answer(const char *call, pjp_play_answer answer) {
    const pjp_attributes *a = &answer.attributes;
    const pjp_estimates *e = &answer.estimates;
    printf("%s: status %d, offset %zu\n", call, answer.status, answer.offset);
    if (answer.status != PJP_GOOD)
        return;
    printf("  objects %" PRIu64 ", multiplier %" PRIu64 ", accuracy score %" PRIu64 ", combo points %" PRIu64 ", max combo %" PRIu32 "\n",
           a->object_count, a->multiplier, a->accuracy_score, a->combo_score, a->max_combo);
    printf("  bonus legacy %" PRIu64 ", standardised %" PRIu64 ", ratio %016" PRIx64 ", nested score per object %016" PRIx64 "\n",
           a->legacy_bonus_score, a->standardised_bonus_score, bits(a->bonus_score_ratio), bits(a->nested_score_per_object));
    printf("  circles %" PRIu32 ", sliders %" PRIu32 ", spinners %" PRIu32 ", repeats %" PRIu32 ", ticks %" PRIu32 "\n", a->n_circles,
           a->n_sliders, a->n_spinners, a->n_repeats, a->n_ticks);
    printf("  accuracy %016" PRIx64 ", combo-based %016" PRIx64 ", ", bits(e->accuracy), bits(e->combo_based));
    if (e->has_score_based)
        printf("score-based %016" PRIx64 ", ", bits(e->score_based));
    printf("effective %016" PRIx64 "\n", bits(e->effective));
}

/* Of a play with factors: what it has beyond the play without them. */
static void print_breaks(const char *call, pjp_breaks_answer answer) {
    printf("%s: status %d, offset %zu\n", call, answer.status, answer.offset);
    if (answer.status == PJP_GOOD)
        printf("  effective %016" PRIx64 ", breaks aim %016" PRIx64 ", speed %016" PRIx64 "\n", bits(answer.estimates.effective),
               bits(answer.slider_breaks.aim), bits(answer.slider_breaks.speed));
}

/* Three 300s at full combo, from stable. */
static pjp_play full_combo(void) {
    pjp_play play;
    memset(&play, 0, sizeof play);
    play.clock_rate = 1;
    play.passed_objects = OBJECTS;
    play.max_combo = 7;
    play.n300 = 3;
    play.origin = PJP_STABLE;
    play.has_score = 1;
    play.score = 1250;
    return play;
}

/* A 100, a 50 and a miss, with HardRock. */
static pjp_play one_miss(void) {
    pjp_play play = full_combo();
    play.max_combo = 2;
    play.n300 = 0;
    play.n100 = 1;
    play.n50 = 1;
    play.misses = 1;
    play.score = 451;
    play.flags = PJP_HR;
    return play;
}

/* A heat with a play in it that exceeds the map, and with an outcome more than it needs; then one with an outcome too few. */
static void show_heat(void) {
    enum { PLAYS = 3 };
    pjp_play plays[PLAYS];
    pjp_play_answer outcomes[PLAYS + 1], before[PLAYS + 1];
    size_t length = (size_t)(end - file);
    int i;
    plays[0] = plays[1] = full_combo();
    plays[1].max_combo = 8;
    plays[2] = one_miss();
    memset(outcomes, 0x5a, sizeof outcomes);
    memset(before, 0x5a, sizeof before);
    print_status("heat", pjp_heat(file, length, plays, PLAYS, outcomes, PLAYS + 1));
    for (i = 0; i < PLAYS; i++) {
        printf("  play %d: status %d, offset %zu", i, outcomes[i].status, outcomes[i].offset);
        if (outcomes[i].status == PJP_GOOD)
            printf(", objects %" PRIu64 ", accuracy %016" PRIx64 ", effective %016" PRIx64, outcomes[i].attributes.object_count,
                   bits(outcomes[i].estimates.accuracy), bits(outcomes[i].estimates.effective));
        printf("\n");
    }
    printf("  the outcome behind them is %s\n", memcmp(outcomes + PLAYS, before + PLAYS, sizeof *before) ? "changed" : "unchanged");

    memset(outcomes, 0x5a, sizeof outcomes);
    print_status("heat in two outcomes", pjp_heat(file, length, plays, PLAYS, outcomes, PLAYS - 1));
    printf("  the outcomes are %s\n", memcmp(outcomes, before, sizeof before) ? "changed" : "unchanged");
}

int main(void) {
    static uint64_t board[WORDS], before[WORDS];
    static double starts[OBJECTS];
    uint8_t spinner[18];
    pjp_map_info map;
    pjp_play play = full_combo();
    pjp_slider_factors factors = {0.5, 2};

    put_map();
    map = pjp_read_map(file, (size_t)(end - file));
    printf("map: status %d, settings %g %g %g, breaks %" PRIu64 ", objects %" PRIu64 ", words %zu\n", map.status, map.settings.hp,
           map.settings.od, map.settings.cs, map.breaks, map.objects, pjp_board_words(map.objects));

    print_status("build", pjp_build(file, (size_t)(end - file), board, WORDS, starts, OBJECTS));
    printf("  top entry %" PRIu64 " %" PRIu64 " %" PRIu64 " %" PRIu64 "\n", board[13], board[14], board[15], board[16]);
    print_answer("full combo", pjp_read(board, WORDS, starts, OBJECTS, OBJECTS, map.settings, NULL, 0, play));

    put_spinner(spinner, 10000, 1400);
    print_status("edit place 2", pjp_edit(board, WORDS, starts, OBJECTS, OBJECTS, 2, spinner, sizeof spinner));
    print_answer("one miss", pjp_read(board, WORDS, starts, OBJECTS, OBJECTS, map.settings, NULL, 0, one_miss()));
    print_breaks("its slider breaks", pjp_read_breaks(board, WORDS, starts, OBJECTS, OBJECTS, map.settings, NULL, 0, one_miss(), factors));

    memcpy(before, board, sizeof board);
    print_status("edit place 3", pjp_edit(board, WORDS, starts, OBJECTS, OBJECTS, 3, spinner, sizeof spinner));
    printf("  the board is %s\n", memcmp(before, board, sizeof board) ? "changed" : "unchanged");
    play.max_combo = 8;
    print_answer("combo above the map's", pjp_read(board, WORDS, starts, OBJECTS, OBJECTS, map.settings, NULL, 0, play));
    play.origin = 3;
    print_answer("origin 3", pjp_score_play(file, (size_t)(end - file), play));
    factors.speed = 10.5;
    print_breaks("origin 3, factor 10.5", pjp_score_play_breaks(file, (size_t)(end - file), play, factors));
    print_breaks("factor 10.5", pjp_score_play_breaks(file, (size_t)(end - file), full_combo(), factors));
    show_heat();
    return 0;
}
