/* lists [SEED]: long lists of calls on a board, as document 01's section on them has it. Beside the board the program keeps the map as records. After
 * each call all lent memory is held to a fresh build of the map's file, and each read, without factors and with them, to the score of its play on
 * that file; at times a heat on that file is held to the scores of its plays. No other answers are needed, so that lists may be long and maps large.
 * The first difference ends the run. Without a seed it takes one whose lists meet every number, and holds them to that. */
#include "popejoanplum.h"
#include <inttypes.h>
#include <math.h>
#include <stdio.h>
#include <stdlib.h>
#include <string.h>

enum { MAX_NESTED = 1000, MAX_RECORD = 12 + MAX_NESTED, MAX_TIMES = 2 * PJP_MAX_BREAKS, MORE = 8 };

/* How a list is drawn: the objects of its map; the calls behind its build; the times of its breaks, two for each; the most nested items of a slider;
 * how many of 100 objects that an edit puts are spinners, where the map starts with half as many; the seconds of the longest spinner. */
typedef struct {
    unsigned objects, turns, times, nested, spinners, seconds;
} style;

/* The bonus of the second map of 300 objects is from the start so near its limit that edits get 7. Each build and score of it goes through some 4 million
 * half spins, so that its list is short, and the other maps of many objects have short spinners. The combo of the first one passes 46,341. */
static const style STYLES[] = {
    {0, 400, 4, 0, 0, 0},           {1, 800, 0, 1000, 60, 3600},   {2, 800, 2, 1000, 60, 3600},  {3, 800, 256, 1000, 40, 3600},
    {5, 1600, 6, 1000, 40, 3600},   {64, 2400, 10, 1000, 30, 600}, {65, 4000, 0, 40, 30, 600},   {200, 4000, 2, 10, 98, 60},
    {300, 1600, 40, 1000, 10, 100}, {300, 200, 2, 10, 98, 3600},   {700, 1600, 4, 10, 80, 20},   {2000, 1600, 0, 100, 30, 10},
    {5000, 1600, 100, 30, 30, 10},  {8192, 1600, 2, 10, 30, 10},
};
enum { LISTS = sizeof STYLES / sizeof *STYLES };

/* An object is its record; a fault may make it a byte longer than any good one. */
typedef struct {
    size_t length;
    uint8_t bytes[MAX_RECORD + 1];
} object;

typedef struct {
    uint64_t words[26 * PJP_MAX_OBJECTS + MORE];
    double starts[PJP_MAX_OBJECTS + MORE];
} memory;

/* ---- the list that runs, its map and its board; how often each number was answered */
static uint64_t seed = 1;
static int drawn; /* whether the seed was given */
static unsigned list, turn;
static style now;
static size_t words; /* that its board needs */
static pjp_settings settings;
static double times[MAX_TIMES + 3]; /* the last but one begins a break too many, the last is out of range */
static object objects[PJP_MAX_OBJECTS];
static memory board, fresh;
static unsigned edits[256], reads[256], factor_reads[256], other_reads[256];
static unsigned broken, marathons; /* reads whose play has slider breaks, and whose play has a score-based estimate on more combo than 46,341 */
static unsigned heats[256], heat_plays[256];

static void hold(int is_so, const char *claim, size_t number) {
    if (is_so)
        return;
    fprintf(stderr, "lists %" PRIu64 ": list %u of %u objects, turn %u, not so: %s %zu\n", seed, list, now.objects, turn, claim, number);
    exit(1);
}

/* ---- numbers without a pattern: Marsaglia's xorshift64 */
static uint64_t state;

static uint64_t any(void) {
    state ^= state << 13;
    state ^= state >> 7;
    return state ^= state << 17;
}

/* 0 where the limit is 0. */
static uint32_t below(uint32_t limit) {
    return limit ? (uint32_t)((any() >> 16) % limit) : 0;
}

static uint32_t up_to(uint32_t most) {
    return below(most + 1);
}

/* ---- the map: few times are at the limits or the negative zero, half of the others are whole and any, the rest within some minutes */
static double draw_time(void) {
    static const double EDGES[] = {8000000.0, -8000000.0, -0.0};
    unsigned sort = below(32);
    if (sort < 3)
        return EDGES[sort];
    return sort < 18 ? below(16000001) - 8000000.0 : below(4000001) / 8.0;
}

/* As a time and as a duration. */
static double draw_bad_double(void) {
    static const double BAD[] = {NAN, INFINITY, -8000000.5, 8000000.5};
    return BAD[below(4)];
}

/* Eighths up to 12. */
static pjp_settings draw_settings(void) {
    pjp_settings s;
    s.hp = (float)below(97) / 8;
    s.od = (float)below(97) / 8;
    s.cs = (float)below(97) / 8;
    return s;
}

static void put_double(object *o, size_t at, double value) {
    memcpy(o->bytes + at, &value, 8);
}

static void start_record(object *o, const char *mark, size_t length) {
    memcpy(o->bytes, mark, 2);
    put_double(o, 2, draw_time());
    o->length = length;
}

static void draw_slider(object *o, uint16_t count) {
    unsigned i;
    start_record(o, "SL", 12u + count);
    memcpy(o->bytes + 10, &count, 2);
    for (i = 0; i < count; i++)
        o->bytes[12 + i] = i + 1 < count ? (uint8_t)below(2) : 2;
}

static void draw_spinner(object *o, double duration) {
    start_record(o, "SP", 18);
    put_double(o, 10, duration);
}

static void draw_object(object *o, unsigned spinners) {
    if (below(100) < spinners)
        draw_spinner(o, up_to(1 << 20) / 1048576.0 * (now.seconds * 1000.0));
    else if (below(2))
        draw_slider(o, (uint16_t)(1 + below(now.nested)));
    else
        start_record(o, "CI", 10);
}

static void draw_map(void) {
    unsigned i;
    settings = draw_settings();
    for (i = 0; i < MAX_TIMES + 2; i++)
        times[i] = draw_time();
    times[i] = 8000000.5;
    for (i = 0; i < now.objects; i++)
        draw_object(objects + i, now.spinners / 2);
}

/* The file of the map's objects with these settings and the first times as breaks. */
static uint8_t file[14 + 18 * PJP_MAX_BREAKS + PJP_MAX_OBJECTS * MAX_RECORD];

static size_t put_file(pjp_settings s, size_t count) {
    uint8_t *at = file + 14;
    size_t i;
    memcpy(file, "MH", 2);
    memcpy(file + 2, &s, sizeof s);
    for (i = 0; i < count; i += 2, at += 18) {
        memcpy(at, "BR", 2);
        memcpy(at + 2, times + i, 16);
    }
    for (i = 0; i < now.objects; at += objects[i++].length)
        memcpy(at, objects[i].bytes, objects[i].length);
    return (size_t)(at - file);
}

static size_t put_map(void) {
    return put_file(settings, now.times);
}

/* ---- memory: what the map needs, and marks behind it that no call may write */
static void fill(memory *m, size_t more, uint64_t word, double start) {
    size_t i;
    for (i = 0; i < words + more; i++)
        m->words[i] = word;
    for (i = 0; i < now.objects + more; i++)
        m->starts[i] = start;
}

static void mark(memory *m) {
    fill(m, MORE, UINT64_C(0xabad1deaabad1dea), -1234567.5);
}

/* By their bits, as all of them have 8 bytes. */
static void hold_same(const void *ours, const void *due, size_t count, const char *claim) {
    const uint8_t *a = (const uint8_t *)ours, *b = (const uint8_t *)due;
    size_t i;
    if (memcmp(a, b, 8 * count))
        for (i = 0; i < count; i++)
            hold(!memcmp(a + 8 * i, b + 8 * i, 8), claim, i);
}

/* The fresh board is built in just the memory that it needs, over other numbers than the list's was: a word that a build leaves out shows. */
static void hold_board(void) {
    pjp_status built;
    mark(&fresh);
    fill(&fresh, 0, UINT64_MAX, 0.25);
    built = pjp_build(file, put_map(), fresh.words, words, fresh.starts, now.objects);
    hold(built.status == PJP_GOOD, "the map is built anew, refused", built.status);
    hold_same(board.words, fresh.words, words + MORE, "the board is that of a fresh build, word");
    hold_same(board.starts, fresh.starts, now.objects + MORE, "the start table is that of a fresh build, start");
}

/* ---- edits. The faults: too many objects are named, too few words are lent, the place is the one behind the last or far behind it; of the record
 * there is nothing, its mark is no object's, a byte is behind it, one byte is there, the last is missing, its time, duration or nested list is wrong,
 * it has 1,001 nested items. */
enum { NO_FAULT, MANY, SHORT, AT_END, FAR, EMPTY, MARK, TRAILING, ONE_BYTE, CUT, TIME, DURATION, NESTED, LONG, FAULTS };

static const uint8_t NUMBERS[] = {PJP_GOOD, PJP_COUNT, PJP_ROOM, PJP_PLACE, PJP_PLACE, PJP_MARK,   PJP_MARK,
                                  PJP_MARK, PJP_CUT,   PJP_CUT,  PJP_RANGE, PJP_RANGE, PJP_NESTED, PJP_COUNT};

/* A list that is empty, ends in another item than the tail, or has a tail or no item at all before it. */
static void draw_wrong_list(object *o) {
    unsigned sort = below(3);
    draw_slider(o, sort ? 7 : 0);
    if (sort == 1)
        o->bytes[18] = (uint8_t)below(2);
    if (sort == 2)
        o->bytes[13] = (uint8_t)(2 + below(3));
}

static void spoil(object *o, unsigned fault) {
    static const char *const MARKS[] = {"MH", "BR", "PL", "ci"};
    switch (fault) {
    case EMPTY: o->length = 0; break;
    case MARK: memcpy(o->bytes, MARKS[below(4)], 2); break;
    case TRAILING: o->bytes[o->length++] = (uint8_t)any(); break;
    case ONE_BYTE: o->length = 1; break;
    case CUT: o->length--; break;
    case TIME: put_double(o, 2, draw_bad_double()); break;
    case DURATION: draw_spinner(o, draw_bad_double()); break;
    case NESTED: draw_wrong_list(o); break;
    case LONG: draw_slider(o, MAX_NESTED + 1); break;
    }
}

static size_t draw_place(unsigned fault) {
    if (fault == AT_END)
        return now.objects;
    return fault == FAR ? now.objects + below(100000) : below(now.objects);
}

/* What the file gets with another object at the place: a good one is refused only for the bonus. */
static uint8_t number_with(size_t place, const object *other) {
    static object before;
    uint8_t number;
    before = objects[place];
    objects[place] = *other;
    number = pjp_read_map(file, put_map()).status;
    objects[place] = before;
    hold(number == PJP_GOOD || number == PJP_BONUS, "a good object is refused only for the bonus, not by", number);
    return number;
}

/* Document 01's number, in the order of its checks. */
static uint8_t due_of(unsigned fault, size_t place, const object *o) {
    if (fault == MANY || fault == SHORT)
        return NUMBERS[fault];
    if (place >= now.objects)
        return PJP_PLACE;
    return fault ? NUMBERS[fault] : number_with(place, o);
}

static void edit_turn(unsigned fault) {
    static object o;
    size_t count = fault == MANY ? PJP_MAX_OBJECTS + 1 : now.objects, place = draw_place(fault);
    uint8_t due;
    pjp_status done;
    draw_object(&o, now.spinners);
    spoil(&o, fault);
    due = due_of(fault, place, &o);
    done = pjp_edit(board.words, fault == SHORT ? words - 1 : words + MORE, board.starts, now.objects + MORE, count, place, o.bytes, o.length);
    hold(done.status == due && done.offset == 0, "an edit gets", due);
    if (done.status == PJP_GOOD)
        objects[place] = o;
    edits[due]++;
}

/* ---- plays: of any passed objects, none or more than there are; with judgements for all of them at times, and one too many at others; most combos
 * are the objects' at least, some are any */
static void draw_passed(pjp_play *p) {
    unsigned sort = below(8);
    p->passed_objects = (uint16_t)(sort == 0 ? 0 : sort < 3 ? 65535 : up_to(now.objects + 2));
}

static void draw_combo(pjp_play *p, uint32_t passed) {
    unsigned sort = below(16);
    p->max_combo = sort == 0 ? (uint32_t)any() : up_to(sort < 4 ? 4 * passed : passed);
}

static void draw_judgements(pjp_play *p, uint32_t passed) {
    p->n300 = (uint16_t)up_to(passed);
    passed -= p->n300;
    p->n100 = (uint16_t)up_to(passed);
    passed -= p->n100;
    p->n50 = (uint16_t)up_to(passed);
    passed -= p->n50;
    p->misses = (uint16_t)up_to(passed + below(8) / 7);
}

static void draw_hits(pjp_play *p, uint32_t passed) {
    p->large_tick_hits = up_to(passed);
    p->small_tick_hits = (uint32_t)any();
    p->slider_end_hits = up_to(passed / 4);
    p->origin = (uint8_t)below(3);
}

static void draw_score(pjp_play *p) {
    unsigned sort = below(4);
    p->has_score = sort > 0;
    p->score = sort == 0 ? 0 : sort == 1 ? (uint32_t)any() : below(10000000);
}

/* A few are out of range. */
static void draw_mods(pjp_play *p) {
    unsigned sort = below(32);
    p->flags = (uint16_t)(below(32) ? below(512) : any());
    p->clock_rate = sort == 0 ? NAN : sort < 16 ? 1.0 : below(100200) / 1000.0;
}

static pjp_play draw_play(void) {
    pjp_play p;
    uint32_t passed;
    draw_passed(&p);
    passed = p.passed_objects < now.objects ? p.passed_objects : now.objects;
    draw_combo(&p, passed);
    draw_judgements(&p, passed);
    draw_hits(&p, passed);
    draw_score(&p);
    draw_mods(&p);
    return p;
}

/* ---- factors: the ends of their range, the negative zero, some below 1, and a few out of range */
typedef struct {
    pjp_play play;
    pjp_slider_factors factors;
} given;

static double draw_factor(void) {
    static const double EDGES[] = {0.0, -0.0, 10.0}, BAD[] = {NAN, INFINITY, -INFINITY, -4.9406564584124654e-324, 10.000000000000002};
    unsigned sort = below(32);
    if (sort < 3)
        return EDGES[sort];
    if (sort < 5)
        return BAD[below(5)];
    return below(10241) / (sort < 16 ? 10240.0 : 1024.0);
}

static given draw_given(void) {
    given g;
    g.play = draw_play();
    g.factors.aim = draw_factor();
    g.factors.speed = draw_factor();
    return g;
}

/* ---- answers. Floats are compared by their bits, but two nested scores that are not a number are the same; no other value may be none. */
typedef struct {
    pjp_play_answer alone;
    pjp_breaks_answer with; /* the same call with factors */
} answers;

static int is_same(pjp_play_answer a, pjp_play_answer b) {
    double x = a.attributes.nested_score_per_object, y = b.attributes.nested_score_per_object;
    if (x != x && y != y)
        a.attributes.nested_score_per_object = y;
    return a.status == b.status && a.offset == b.offset && !memcmp(&a.attributes, &b.attributes, sizeof a.attributes) &&
           !memcmp(&a.estimates, &b.estimates, offsetof(pjp_estimates, has_score_based)) &&
           a.estimates.has_score_based == b.estimates.has_score_based;
}

static pjp_play_answer without_breaks(pjp_breaks_answer a) {
    pjp_play_answer front;
    front.status = a.status;
    front.offset = a.offset;
    front.attributes = a.attributes;
    front.estimates = a.estimates;
    return front;
}

static int is_same_with(pjp_breaks_answer a, pjp_breaks_answer b) {
    return is_same(without_breaks(a), without_breaks(b)) && !memcmp(&a.slider_breaks, &b.slider_breaks, sizeof a.slider_breaks);
}

static int is_factor(double value) {
    return value >= 0 && value <= 10;
}

/* Document 02: what a call with factors gets by what it gets without them. 14 is checked last. */
static pjp_play_answer due_with(pjp_play_answer alone, pjp_slider_factors f) {
    if (alone.status != PJP_GOOD || (is_factor(f.aim) && is_factor(f.speed)))
        return alone;
    memset(&alone, 0, sizeof alone);
    alone.status = PJP_FACTOR;
    return alone;
}

/* From 0 to n100, or to 0 where at most one miss is effective; the positive 0 without an effective miss, with origin 1 and without a 100. */
static int are_breaks(pjp_play p, pjp_breaks_answer a) {
    static const pjp_slider_breaks NONE = {0, 0};
    pjp_slider_breaks b = a.slider_breaks;
    double most = a.estimates.effective > 1 ? p.n100 : 0;
    if (a.status != PJP_GOOD || a.estimates.effective == 0 || p.origin == PJP_WITH_SLIDER_ACC || p.n100 == 0)
        return !memcmp(&b, &NONE, sizeof NONE);
    return b.aim >= 0 && b.aim <= most && b.speed >= 0 && b.speed <= most;
}

static answers hold_factors(given g, answers a) {
    pjp_play_answer due = due_with(a.alone, g.factors);
    hold(is_same(without_breaks(a.with), due), "with factors a call gets all that it gets without them, or 14, number", due.status);
    hold(are_breaks(g.play, a.with), "slider breaks are within their range, number", a.with.status);
    return a;
}

/* ---- reads */
static answers score_file(size_t length, given g) {
    answers a;
    a.alone = pjp_score_play(file, length, g.play);
    a.with = pjp_score_play_breaks(file, length, g.play, g.factors);
    return hold_factors(g, a);
}

static answers read_board(size_t lent, size_t count, pjp_settings s, const double *breaks, size_t length, given g) {
    answers a;
    a.alone = pjp_read(board.words, lent, board.starts, now.objects + MORE, count, s, breaks, length, g.play);
    a.with = pjp_read_breaks(board.words, lent, board.starts, now.objects + MORE, count, s, breaks, length, g.play, g.factors);
    return hold_factors(g, a);
}

/* A read with these settings and the first times as breaks gets what the play gets beside the file with them. */
static answers hold_read(pjp_settings s, size_t count) {
    given g = draw_given();
    answers due = score_file(put_file(s, count), g), found = read_board(words + MORE, now.objects, s, times, count, g);
    hold(is_same(found.alone, due.alone), "a read gets what the play gets on the map's file, number", due.alone.status);
    hold(is_same_with(found.with, due.with), "a read with factors gets what the play gets with them on the map's file, number", due.with.status);
    return found;
}

static void read_turn(void) {
    answers found = hold_read(settings, now.times);
    reads[found.alone.status]++;
    factor_reads[found.with.status]++;
    broken += found.with.slider_breaks.aim > 0 && found.with.slider_breaks.speed > 0;
    marathons += found.alone.attributes.max_combo > 46341 && found.alone.estimates.has_score_based;
}

static pjp_settings draw_bad_settings(void) {
    static const float BAD[] = {NAN, 12.125f, -0.125f};
    pjp_settings s = draw_settings();
    float *const FIELDS[] = {&s.hp, &s.od, &s.cs};
    *FIELDS[below(3)] = BAD[below(3)];
    return s;
}

/* With other settings, other breaks, fewer objects (document 01 says only that nothing changes), too many of them, too many breaks, too few words, a
 * setting out of range, a break without its end, a time out of range. */
static answers read_other(unsigned sort) {
    size_t all = words + MORE, count = now.objects, own = now.times;
    given g = draw_given();
    switch (sort) {
    case 0: return hold_read(draw_settings(), own);
    case 1: return hold_read(settings, 2 * up_to(PJP_MAX_BREAKS));
    case 2: return read_board(all, below(now.objects), settings, times, own, g);
    case 3: return read_board(all, PJP_MAX_OBJECTS + 1, settings, times, own, g);
    case 4: return read_board(all, count, settings, times, MAX_TIMES + 1 + below(2), g);
    case 5: return read_board(words - 1, count, settings, times, own, g);
    case 6: return read_board(all, count, draw_bad_settings(), times, own, g);
    case 7: return read_board(all, count, settings, times, 2 * below(PJP_MAX_BREAKS) + 1, g);
    default: return read_board(all, count, settings, times + MAX_TIMES + 1, 2, g);
    }
}

static void other_turn(unsigned sort) {
    static const uint8_t DUE[] = {0, 0, 0, PJP_COUNT, PJP_COUNT, PJP_ROOM, PJP_RANGE, PJP_RANGE, PJP_RANGE};
    uint8_t found = read_other(sort).alone.status;
    hold(sort < 3 || found == DUE[sort], "a read of another map gets", DUE[sort]);
    other_reads[found]++;
}

/* ---- heats on the map's file, with as many outcomes as plays or one more. The wrongs: a play too many, an outcome too few, either with a file whose
 * last byte is missing. */
enum { MANY_PLAYS, FEW_OUTCOMES, CUT_MANY, CUT_FEW, WRONGS, MAX_HEAT = PJP_HEAT_PLAYS + 2 };

static uint8_t due_of_heat(unsigned wrong) {
    if (wrong >= WRONGS)
        return PJP_GOOD;
    return wrong == CUT_MANY || wrong == CUT_FEW ? PJP_CUT : PJP_HEAT;
}

static void hold_outcomes(const pjp_play_answer *outcomes, const pjp_play *plays, size_t count, size_t length) {
    size_t i;
    for (i = 0; i < count; i++) {
        hold(is_same(outcomes[i], pjp_score_play(file, length, plays[i])), "the outcome of a play of a heat is its score on the file, play", i);
        heat_plays[outcomes[i].status]++;
    }
}

static void heat_turn(unsigned wrong) {
    static pjp_play plays[MAX_HEAT];
    static pjp_play_answer outcomes[MAX_HEAT], before[MAX_HEAT];
    size_t length = put_map(), count = 1 + below(PJP_HEAT_PLAYS), room = count + below(2), i;
    pjp_status done;
    if (wrong == MANY_PLAYS || wrong == CUT_MANY)
        room = count = PJP_HEAT_PLAYS + 1;
    if (wrong == FEW_OUTCOMES || wrong == CUT_FEW)
        room = count - 1;
    length -= wrong == CUT_MANY || wrong == CUT_FEW;
    for (i = 0; i < count; i++)
        plays[i] = draw_play();
    memset(outcomes, 0x5a, sizeof outcomes);
    memset(before, 0x5a, sizeof before);
    done = pjp_heat(file, length, plays, count, outcomes, room);
    hold(done.status == due_of_heat(wrong) && done.offset == pjp_score_map(file, length).offset, "a heat gets", due_of_heat(wrong));
    count = done.status == PJP_GOOD ? count : 0;
    hold_outcomes(outcomes, plays, count, length);
    hold(!memcmp(outcomes + count, before + count, (MAX_HEAT - count) * sizeof *before), "outcomes stay, from", count);
    heats[done.status]++;
}

/* ---- lists: of 8 turns 4 are edits that may be good; before each 16 stands a heat, and of 8 heats 4 are wrong */
static void take_turn(void) {
    unsigned round = turn / 8;
    if (turn % 16 == 0)
        heat_turn(round / 2 % 8);
    switch (turn % 8) {
    case 2:
    case 6: read_turn(); break;
    case 4: edit_turn(1 + round % (FAULTS - 1)); break;
    case 7: other_turn(round % 9); break;
    default: edit_turn(NO_FAULT);
    }
    hold_board();
}

/* A map whose bonus is above the limit is drawn anew. */
static void build(void) {
    unsigned tries = 0;
    pjp_status built;
    do {
        draw_map();
        mark(&board);
        built = pjp_build(file, put_map(), board.words, words + MORE, board.starts, now.objects + MORE);
    } while (built.status == PJP_BONUS && ++tries < 100);
    hold(built.status == PJP_GOOD, "the map is built, refused", built.status);
    hold_board();
}

/* Each list has its own numbers, whatever those before it drew; xorshift needs a state that is not 0, and some turns until near seeds differ. */
static void run_list(void) {
    unsigned i;
    now = STYLES[list];
    words = pjp_board_words(now.objects);
    state = (seed * LISTS + list + 1) * UINT64_C(0x9e3779b97f4a7c15);
    state += !state;
    for (i = 0; i < 16; i++)
        any();
    turn = 0;
    for (build(); turn < now.turns; turn++)
        take_turn();
}

/* Every number that is expected was met: no part of the lists falls silent. A seed that was drawn may miss one. */
static void print_counts(const char *calls, const unsigned *counts, const uint8_t *expected) {
    unsigned i;
    for (; *expected; expected++)
        hold(counts[*expected] > 0 || drawn, "some calls are refused by", *expected);
    hold(counts[10] == 0, "no call is refused by", 10);
    printf("  %s: %u good", calls, counts[PJP_GOOD]);
    for (i = 1; i < 256; i++)
        if (counts[i])
            printf(", refused %u: %u", i, counts[i]);
    printf("\n");
}

int main(int argc, char **argv) {
    static const uint8_t OF_EDITS[] = {PJP_CUT, PJP_MARK, PJP_RANGE, PJP_NESTED, PJP_COUNT, PJP_BONUS, PJP_ROOM, PJP_PLACE, 0};
    static const uint8_t OF_READS[] = {PJP_PLAY_FIELD, PJP_PLAY_EXCEEDS, 0}, OF_OTHERS[] = {PJP_RANGE, PJP_COUNT, PJP_ROOM, 0};
    static const uint8_t OF_FACTOR_READS[] = {PJP_PLAY_FIELD, PJP_PLAY_EXCEEDS, PJP_FACTOR, 0}, OF_HEATS[] = {PJP_CUT, PJP_HEAT, 0};
    char none[] = "", *end = none;
    drawn = argc == 2;
    if (drawn)
        seed = strtoull(argv[1], &end, 10);
    if (argc > 2 || (drawn && end == argv[1]) || *end) {
        fprintf(stderr, "lists [SEED], a whole number\n");
        return 2;
    }
    for (list = 0; list < LISTS; list++)
        run_list();
    printf("lists %" PRIu64 ": %u lists of calls are as fresh builds and scores have it\n", seed, (unsigned)LISTS);
    print_counts("edits", edits, OF_EDITS);
    print_counts("reads", reads, OF_READS);
    print_counts("reads with factors", factor_reads, OF_FACTOR_READS);
    hold(broken > 0 || drawn, "some plays have slider breaks, not", broken);
    printf("  slider breaks: in %u of them\n", broken);
    hold(marathons > 0 || drawn, "some plays have an estimate above a combo of 46,341, not", marathons);
    printf("  score-based estimates above a combo of 46,341: in %u of them\n", marathons);
    print_counts("reads of another map", other_reads, OF_OTHERS);
    print_counts("heats", heats, OF_HEATS);
    print_counts("plays of heats", heat_plays, OF_READS);
    return 0;
}
