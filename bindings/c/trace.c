/* trace files|breaks|heats|calls: answers a stream of map files, of plays with factors beside map files, of heats, or of lists of calls on a board,
 * through the header, as `oracle trace`, `oracle trace-breaks`, `oracle trace-heats` and `oracle trace-calls` answer it from the Rust;
 * oracle/src/breaks.rs, oracle/src/heats.rs and oracle/src/calls.rs have the formats. `test` holds it to stored streams in ../../vectors,
 * `.ci/compare` to fresh ones. So every function and every field meets values that this engine did not make. */
#include "popejoanplum.h"
#include <inttypes.h>
#include <stdio.h>
#include <stdlib.h>
#include <string.h>

enum { PLAY_RECORD = 44, MAX_TIMES = 2 * PJP_MAX_BREAKS, MAX_WORDS = 26 * PJP_MAX_OBJECTS + 512, MAX_STARTS = PJP_MAX_OBJECTS + 512 };

static void hold(int is_so, const char *claim) {
    if (is_so)
        return;
    fprintf(stderr, "not so: %s\n", claim);
    exit(1);
}

/* ---- the stream: frames of a length and as many bytes, little-endian as this machine */
static uint8_t frame[1 << 24]; /* longer than a file of 8,192 sliders of 1,000 items */
static size_t frame_length;

static int read_frame(void) {
    uint32_t length;
    size_t got = fread(&length, 1, 4, stdin);
    if (got == 0 && feof(stdin))
        return 0;
    hold(got == 4, "a length is whole");
    hold(length <= sizeof frame, "a frame has room");
    frame_length = fread(frame, 1, length, stdin);
    hold(frame_length == length, "a frame is whole");
    return 1;
}

/* Takes the next bytes. */
static void take(const uint8_t **at, void *to, size_t length) {
    hold(length <= (size_t)(frame + frame_length - *at), "a call has all its fields");
    memcpy(to, *at, length);
    *at += length;
}

/* The play of a PL record. */
static pjp_play play_of(const uint8_t *record) {
    pjp_play p;
    const uint8_t *at = record + 2;
    take(&at, &p.passed_objects, 2);
    take(&at, &p.max_combo, 4);
    take(&at, &p.n300, 2);
    take(&at, &p.n100, 2);
    take(&at, &p.n50, 2);
    take(&at, &p.misses, 2);
    take(&at, &p.large_tick_hits, 4);
    take(&at, &p.small_tick_hits, 4);
    take(&at, &p.slider_end_hits, 4);
    take(&at, &p.origin, 1);
    take(&at, &p.has_score, 1);
    take(&at, &p.score, 4);
    take(&at, &p.flags, 2);
    take(&at, &p.clock_rate, 8);
    return p;
}

/* ---- the lines */
static uint64_t bits(double value) {
    uint64_t word;
    memcpy(&word, &value, 8);
    return word;
}

static void print_float(double value) {
    if (value != value)
        printf(" nan");
    else
        printf(" %016" PRIx64, bits(value));
}

/* Objects, multiplier, points and the ratio: how both lines of attributes begin. */
static void print_points(const pjp_attributes *a) {
    printf(" %" PRIu64 " %" PRIu64 " %" PRIu64 " %" PRIu64, a->object_count, a->multiplier, a->accuracy_score, a->combo_score);
    print_float(a->bonus_score_ratio);
    printf(" %" PRIu64, a->legacy_bonus_score);
}

static void print_map(const pjp_attributes *a) {
    printf("map");
    print_points(a);
    printf(" %" PRIu32, a->max_combo);
    print_float(a->nested_score_per_object);
    printf("\n");
}

static void print_attributes(unsigned index, const pjp_attributes *a) {
    printf("attrs %u", index);
    print_points(a);
    printf(" %" PRIu64 " %" PRIu32, a->standardised_bonus_score, a->max_combo);
    print_float(a->nested_score_per_object);
    printf(" %" PRIu32 " %" PRIu32 " %" PRIu32 " %" PRIu32 " %" PRIu32 "\n", a->n_circles, a->n_sliders, a->n_spinners, a->n_repeats, a->n_ticks);
}

static void print_estimates(unsigned index, const pjp_estimates *e) {
    printf("play %u", index);
    print_float(e->accuracy);
    print_float(e->combo_based);
    if (e->has_score_based)
        print_float(e->score_based);
    else
        printf(" -");
    print_float(e->effective);
    printf("\n");
}

static void print_breaks(unsigned index, const pjp_slider_breaks *b) {
    printf("breaks %u", index);
    print_float(b->aim);
    print_float(b->speed);
    printf("\n");
}

/* Attributes have no padding. */
static int same_attributes(const pjp_attributes *a, const pjp_attributes *b) {
    return !memcmp(a, b, sizeof *a);
}

static int same_estimates(pjp_estimates a, pjp_estimates b) {
    return bits(a.accuracy) == bits(b.accuracy) && bits(a.combo_based) == bits(b.combo_based) && bits(a.score_based) == bits(b.score_based) &&
           bits(a.effective) == bits(b.effective) && a.has_score_based == b.has_score_based;
}

static void print_refused(uint8_t status, size_t offset) {
    printf("refused %d at %zu\n", status, offset);
}

/* A refusal has no value. */
static void hold_no_attributes(const pjp_attributes *a) {
    static pjp_attributes none;
    hold(same_attributes(a, &none), "a refusal has no attributes");
}

static void hold_play(const pjp_play_answer *answer) {
    static pjp_estimates none;
    if (answer->status == PJP_GOOD)
        return;
    hold_no_attributes(&answer->attributes);
    hold(same_estimates(answer->estimates, none), "a refusal has no estimates");
}

static void print_play(unsigned index, const pjp_play_answer *answer) {
    if (answer->status != PJP_GOOD) {
        print_refused(answer->status, answer->offset);
        return;
    }
    print_attributes(index, &answer->attributes);
    print_estimates(index, &answer->estimates);
}

/* What a call with factors answers but for its breaks. */
static pjp_play_answer play_answer(const pjp_breaks_answer *with) {
    pjp_play_answer answer = {with->status, with->offset, with->attributes, with->estimates};
    return answer;
}

/* A call with factors gives what the call without them gives, then 14, else breaks behind it. */
static void hold_breaks(const pjp_breaks_answer *with, const pjp_play_answer *without) {
    pjp_play_answer answer = play_answer(with);
    hold_play(without);
    hold_play(&answer);
    if (with->status == PJP_FACTOR)
        hold(without->status == PJP_GOOD && with->offset == 0, "factors are checked last, and point at no record");
    else
        hold(with->status == without->status && with->offset == without->offset, "a call is refused alike with factors and without");
    if (with->status == PJP_GOOD)
        hold(same_attributes(&with->attributes, &without->attributes) && same_estimates(with->estimates, without->estimates),
             "factors change no other value");
    else
        hold(bits(with->slider_breaks.aim) == 0 && bits(with->slider_breaks.speed) == 0, "a refusal has no breaks");
}

static void print_play_and_breaks(unsigned index, const pjp_breaks_answer *with) {
    pjp_play_answer answer = play_answer(with);
    print_play(index, &answer);
    if (with->status == PJP_GOOD)
        print_breaks(index, &with->slider_breaks);
}

/* ---- files: the listing, then the attributes of each play. The plays are a file's last records. */
static void trace_file(void) {
    pjp_map_answer map = pjp_score_map(frame, frame_length);
    pjp_map_info info = pjp_read_map(frame, frame_length);
    unsigned i, plays = 0;
    pjp_play_answer listed, given;
    if (map.status != PJP_GOOD) {
        hold(map.status == PJP_PLAY_EXCEEDS || (info.status == map.status && info.offset == map.offset),
             "a file is refused alike by read_map and score_map");
        hold_no_attributes(&map.attributes);
        print_refused(map.status, map.offset);
        return;
    }
    hold(info.status == PJP_GOOD && info.objects == map.attributes.object_count, "read_map counts the objects");
    print_map(&map.attributes);
    while ((listed = pjp_score_play_at(frame, frame_length, plays)).status == PJP_GOOD)
        print_estimates(plays++, &listed.estimates);
    hold(listed.status == PJP_NO_PLAY, "behind the last play there is none");
    for (i = 0; i < plays; i++) {
        listed = pjp_score_play_at(frame, frame_length, i);
        given = pjp_score_play(frame, frame_length, play_of(frame + frame_length - (plays - i) * PLAY_RECORD));
        hold(given.status == PJP_GOOD && same_estimates(given.estimates, listed.estimates), "a play scores alike in the file and beside it");
        hold(same_attributes(&given.attributes, &listed.attributes), "and has the same attributes");
        print_attributes(i, &given.attributes);
    }
}

/* ---- what a play with factors and a read have: the play's flags and rate stand beside its record. */
static pjp_play take_play(const uint8_t **at) {
    uint16_t flags;
    double rate;
    pjp_play play;
    take(at, &flags, 2);
    take(at, &rate, 8);
    play = play_of(*at);
    play.flags = flags;
    play.clock_rate = rate;
    *at += PLAY_RECORD;
    return play;
}

static pjp_slider_factors take_factors(const uint8_t **at) {
    pjp_slider_factors factors;
    take(at, &factors.aim, 8);
    take(at, &factors.speed, 8);
    return factors;
}

/* ---- breaks: plays with factors beside the map file that is behind them. */
static void trace_breaks(void) {
    enum { GIVEN = 2 * 8 + 2 + 8 + PLAY_RECORD };
    const uint8_t *at = frame, *file;
    uint32_t count, i;
    take(&at, &count, 4);
    hold(count <= (size_t)(frame + frame_length - at) / GIVEN, "a frame has all its plays");
    file = at + count * GIVEN;
    for (i = 0; i < count; i++) {
        pjp_slider_factors factors = take_factors(&at);
        pjp_play play = take_play(&at);
        size_t length = (size_t)(frame + frame_length - file);
        pjp_breaks_answer with = pjp_score_play_breaks(file, length, play, factors);
        pjp_play_answer without = pjp_score_play(file, length, play);
        hold_breaks(&with, &without);
        print_play_and_breaks(i, &with);
    }
}

/* ---- heats: plays beside the map file that is behind them. What they are lent is filled, and more behind it, to show what was not to be written. */
enum { MAX_GIVEN = 512, MAX_LENT = 1024, MORE_LENT = 8 };
static pjp_play plays[MAX_GIVEN];
static pjp_play_answer outcomes[MAX_LENT + MORE_LENT];

/* Of another byte in each place, so that an outcome that moved shows too. */
static uint8_t filler(size_t place) {
    return (uint8_t)(37 * place + 11);
}

static void fill_outcomes(void) {
    size_t i;
    for (i = 0; i < sizeof outcomes; i++)
        ((uint8_t *)outcomes)[i] = filler(i);
}

static void hold_filled(size_t from) {
    size_t i;
    for (i = from * sizeof *outcomes; i < sizeof outcomes; i++)
        hold(((const uint8_t *)outcomes)[i] == filler(i), "a refused heat writes nothing, any other nothing beyond its plays");
}

static void hold_outcome(const pjp_play_answer *outcome, const pjp_play_answer *alone) {
    hold(outcome->status == alone->status && outcome->offset == alone->offset, "a play is refused alike in a heat and alone");
    hold(same_attributes(&outcome->attributes, &alone->attributes) && same_estimates(outcome->estimates, alone->estimates),
         "a play scores alike in a heat and alone");
    hold_play(outcome);
}

/* Gives where the file begins. */
static const uint8_t *take_plays(const uint8_t *at, uint32_t count) {
    uint32_t i;
    hold(count <= MAX_GIVEN && count <= (size_t)(frame + frame_length - at) / PLAY_RECORD, "a frame has all its plays");
    for (i = 0; i < count; i++)
        plays[i] = play_of(at + i * PLAY_RECORD);
    return at + count * PLAY_RECORD;
}

static void trace_heat(void) {
    const uint8_t *file = frame;
    uint32_t lent, count, i;
    size_t length;
    pjp_status answer;
    take(&file, &lent, 4);
    take(&file, &count, 4);
    hold(lent <= MAX_LENT, "outcomes have room");
    file = take_plays(file, count);
    length = (size_t)(frame + frame_length - file);
    fill_outcomes();
    answer = pjp_heat(file, length, count ? plays : NULL, count, lent ? outcomes : NULL, lent);
    if (answer.status != PJP_GOOD) {
        hold_filled(0);
        print_refused(answer.status, answer.offset);
        return;
    }
    hold_filled(count);
    printf("heat %" PRIu32 "\n", count);
    for (i = 0; i < count; i++) {
        pjp_play_answer alone = pjp_score_play(file, length, plays[i]);
        hold_outcome(outcomes + i, &alone);
        print_play(i, outcomes + i);
    }
}

/* ---- calls: a list starts with a build. What it is lent is filled, so that the digests show what was not to be written. */
static uint64_t board[MAX_WORDS];
static double starts[MAX_STARTS], times[MAX_TIMES];
static uint32_t words, numbers;
static pjp_map_info map;
static unsigned calls;

static void build(const uint8_t *at) {
    pjp_status answer;
    size_t i;
    take(&at, &words, 4);
    take(&at, &numbers, 4);
    hold(words <= MAX_WORDS && numbers <= MAX_STARTS, "what is lent has room");
    for (i = 0; i < words; i++)
        board[i] = UINT64_C(0xdadadadadadadada);
    for (i = 0; i < numbers; i++)
        starts[i] = -0.5;
    map = pjp_read_map(at, (size_t)(frame + frame_length - at));
    pjp_copy_breaks(at, map.breaks, times);
    calls = 0;
    answer = pjp_build(at, (size_t)(frame + frame_length - at), board, words, starts, numbers);
    if (answer.status != PJP_GOOD)
        print_refused(answer.status, answer.offset);
    else
        printf("built\n");
}

static void edit(const uint8_t *at) {
    uint32_t count, place;
    pjp_status answer;
    take(&at, &count, 4);
    take(&at, &place, 4);
    answer = pjp_edit(board, words, starts, numbers, count, place, at, (size_t)(frame + frame_length - at));
    if (answer.status != PJP_GOOD)
        print_refused(answer.status, answer.offset);
    else
        printf("done\n");
}

/* The arguments of a read behind the board and its starts. */
typedef struct {
    uint32_t count;
    pjp_settings settings;
    pjp_play play;
    size_t times;
    double breaks[MAX_TIMES + 64]; /* some reads are given too many */
} read_arguments;

/* A read with the map's own settings and breaks finds them as the header's functions gave them. */
static void take_read(const uint8_t *at, int is_own, read_arguments *r) {
    size_t length;
    take(&at, &r->count, 4);
    take(&at, &r->settings.hp, 4);
    take(&at, &r->settings.od, 4);
    take(&at, &r->settings.cs, 4);
    r->play = take_play(&at);
    length = (size_t)(frame + frame_length - at);
    hold(length <= sizeof r->breaks && length % 8 == 0, "breaks have room");
    memcpy(r->breaks, at, length);
    r->times = length / 8;
    if (is_own) {
        hold(!memcmp(&r->settings, &map.settings, sizeof r->settings), "read_map tells the settings");
        hold(r->count == map.objects && length == 16 * map.breaks && !memcmp(r->breaks, times, length), "and the breaks");
    }
}

static void read_board(const uint8_t *at, int is_own, int has_factors, unsigned index) {
    static read_arguments r;
    pjp_slider_factors factors = {0, 0};
    pjp_play_answer answer;
    if (has_factors)
        factors = take_factors(&at);
    take_read(at, is_own, &r);
    answer = pjp_read(board, words, starts, numbers, r.count, r.settings, r.breaks, r.times, r.play);
    hold_play(&answer);
    if (has_factors) {
        pjp_breaks_answer with = pjp_read_breaks(board, words, starts, numbers, r.count, r.settings, r.breaks, r.times, r.play, factors);
        hold_breaks(&with, &answer);
        if (is_own)
            print_play_and_breaks(index, &with);
    } else if (is_own) {
        print_play(index, &answer);
    }
    if (!is_own)
        printf("other\n");
}

static uint64_t mixed(uint64_t digest, uint64_t number) {
    digest += number;
    digest ^= digest << 13;
    digest ^= digest >> 7;
    return digest ^ digest << 17;
}

static void print_board(void) {
    uint64_t of_words = 1, of_starts = 1;
    size_t i;
    for (i = 0; i < words; i++)
        of_words = mixed(of_words, board[i]);
    for (i = 0; i < numbers; i++)
        of_starts = mixed(of_starts, bits(starts[i]));
    printf("board %016" PRIx64 " %016" PRIx64 "\n", of_words, of_starts);
}

static void trace_call(void) {
    uint8_t kind = frame[0];
    unsigned index = calls++;
    hold(frame_length > 0 && kind <= 6, "a frame has a call");
    if (kind == 0)
        build(frame + 1);
    else if (kind == 1)
        edit(frame + 1);
    else if (kind == 4)
        print_board();
    else
        read_board(frame + 1, kind == 2 || kind == 5, kind >= 5, index);
}

typedef void (*tracer)(void);

static tracer tracer_of(const char *what) {
    if (!strcmp(what, "files"))
        return trace_file;
    if (!strcmp(what, "breaks"))
        return trace_breaks;
    if (!strcmp(what, "heats"))
        return trace_heat;
    hold(!strcmp(what, "calls"), "the argument is files, breaks, heats or calls");
    return trace_call;
}

int main(int argc, char **argv) {
    tracer trace = tracer_of(argc == 2 ? argv[1] : "");
    while (read_frame())
        trace();
    hold(!fflush(stdout) && !ferror(stdout), "the answers are written");
    return 0;
}
