/* Calls pf_label, pf_index, pf_levy, pf_lookup, pf_flow, pf_flow_pairs, pf_outlet_flow, pf_check_plan and pf_first_bad
   on the cases that come on standard input, and compares the answer and every number of every lent slice afterwards
   with what is expected; also the dues of pf_levy with the total and with the weights of the cells, and the basins of a
   sheet that pf_label accepts with those that it gives where all others are set to 0. Where a slice of labels ends with
   an odd number, or a slice of basins has places past the labels, the call is made a second time with other numbers
   there. The cases are made by tests/direct/cases.py, which also says how they are laid out. */
#include <inttypes.h>
#include <stdint.h>
#include <stdio.h>
#include <stdlib.h>
#include <string.h>
#include "pfafstetter.h"

/* A lent slice; what it holds before the call, and what it must hold after it. */
struct lent {
    const char *name;
    size_t width;
    int of_labels;
    uint64_t length;
    void *before, *places, *expected;
};

enum { TOLD = 5 }; /* differences of one case that are told */
enum { ALONE_CELLS = 1 << 16 }; /* cells that are labelled with the basins of one sheet alone */

static uint64_t passed, failed;

static void take(void *into, size_t size) {
    if (size != 0 && fread(into, 1, size, stdin) != size) {
        fprintf(stderr, "the cases end in the middle of one\n");
        exit(2);
    }
}

static uint64_t number(void) {
    uint64_t value;
    take(&value, sizeof value);
    return value;
}

/* A slice of its exact size, so that a tool that watches memory sees a place too far. */
static void *slice(size_t size) {
    void *places = malloc(size == 0 ? 1 : size);
    if (places == NULL) exit(2);
    take(places, size);
    return places;
}

static size_t size_of(const struct lent *lent) { return lent->width * lent->length; }

/* Takes the slices as they are before the call. */
static void take_slices(struct lent *lent, int count) {
    for (int i = 0; i < count; i++) {
        lent[i].before = slice(size_of(&lent[i]));
        lent[i].places = malloc(size_of(&lent[i]) + (size_of(&lent[i]) == 0));
        if (lent[i].places == NULL) exit(2);
    }
}

/* Takes what the slices must hold after the call; the first `read_only` must stay as they are. */
static void take_expected(struct lent *lent, int count, int read_only) {
    for (int i = 0; i < count; i++) lent[i].expected = i < read_only ? lent[i].before : slice(size_of(&lent[i]));
}

static void lend(struct lent *lent, int count) {
    for (int i = 0; i < count; i++)
        if (lent[i].length != 0) memcpy(lent[i].places, lent[i].before, size_of(&lent[i]));
}

/* Do the slices hold what they must? */
static int as_expected(uint64_t which, const struct lent *lent, int count) {
    int good = 1;
    for (int i = 0; i < count; i++) {
        if (lent[i].length == 0 || memcmp(lent[i].places, lent[i].expected, size_of(&lent[i])) == 0) continue;
        printf("case %" PRIu64 ": %s differ\n", which, lent[i].name);
        good = 0;
    }
    return good;
}

/* Changes the odd number at the end of each slice of labels that has one. Were there any? */
static int change_odd(struct lent *lent, int count) {
    int changed = 0;
    for (int i = 0; i < count; i++) {
        if (!lent[i].of_labels || lent[i].length % 2 == 0) continue;
        uint64_t *before = lent[i].before, *expected = lent[i].expected, last = lent[i].length - 1;
        uint64_t other = ~before[last];
        before[last] = expected[last] = other;
        changed = 1;
    }
    return changed;
}

/* Changes the places of a slice of basins from this one on. Were there any? */
static int change_past(struct lent *basins, uint64_t from) {
    uint32_t *before = basins->before;
    for (uint64_t i = from; i < basins->length; i++) before[i] = ~before[i];
    return from < basins->length;
}

static void release(struct lent *lent, int count) {
    for (int i = 0; i < count; i++) {
        if (lent[i].expected != lent[i].before) free(lent[i].expected);
        free(lent[i].before), free(lent[i].places);
    }
}

/* The text of a record of two numbers. */
struct text {
    char bytes[96];
};

static struct text text_of(uint64_t first, uint64_t rest) {
    struct text text;
    snprintf(text.bytes, sizeof text.bytes, "%" PRIu64 " %" PRIu64, first, rest);
    return text;
}

/* The slices that are lent with a sheet: those of pf_label, then four of pf_index, then one of pf_levy. */
enum { DIRS, WEIGHTS, AREAS, LABELS, BASINS, WORK, UNITS, OUTLETS, COUNTS, UNIT_BASINS, DUES, OF_LEVY,
       READ_ONLY = AREAS, OF_LABEL = UNITS, OF_INDEX = DUES };

#define LENT(slice) lent[slice].places, lent[slice].length

/* A sheet with its lent slices; the basin and the total are those of a levy. */
struct sheet {
    uint64_t rows, cols, depth, least, split, basin, total;
    struct lent lent[OF_LEVY];
};

/* A unit, with both numbers of its label, the summed weight of its cells and its due. */
struct share {
    uint64_t first, rest, weight, due;
};

static int by_label(const void *one, const void *other) {
    const struct share *a = one, *b = other;
    return a->first != b->first ? (a->first > b->first) - (a->first < b->first)
                                : (a->rest > b->rest) - (a->rest < b->rest);
}

/* The units of the levy's basin, of so many that a call wrote, with their dues, and with their weights by the labels
   and basins that it wrote; in rising order of the labels as pairs of numbers. Also their number, and the weight of all
   cells of the basin. */
static struct share *shares_of(const struct sheet *sheet, uint64_t units, uint64_t *count, uint64_t *whole) {
    const uint8_t *dirs = sheet->lent[DIRS].before;
    const uint16_t *weights = sheet->lent[WEIGHTS].before;
    const uint64_t *labels = sheet->lent[LABELS].places, *unit_labels = sheet->lent[UNITS].places;
    const uint64_t *dues = sheet->lent[DUES].places;
    const uint32_t *basins = sheet->lent[BASINS].places, *unit_basins = sheet->lent[UNIT_BASINS].places;
    struct share *shares = malloc(units * sizeof *shares);
    if (shares == NULL) exit(2);
    *count = *whole = 0;
    for (uint64_t k = 0; k < units; k++) {
        if (unit_basins[k] != sheet->basin) continue;
        uint64_t due = *count < sheet->lent[DUES].length ? dues[*count] : 0;
        shares[(*count)++] = (struct share){.first = unit_labels[2 * k], .rest = unit_labels[2 * k + 1], .due = due};
    }
    qsort(shares, *count, sizeof *shares, by_label);
    for (uint64_t cell = 0; cell < sheet->rows * sheet->cols; cell++) {
        if (dirs[cell] == 0 || basins[cell] != sheet->basin) continue;
        struct share sought = {.first = labels[2 * cell], .rest = labels[2 * cell + 1]};
        struct share *found = bsearch(&sought, shares, *count, sizeof *shares, by_label);
        if (found != NULL) found->weight += weights[cell / sheet->cols];
        *whole += weights[cell / sheet->cols];
    }
    return shares;
}

/* Do the dues of an accepted levy add up to its total, and does each lie less than one cent from its exact share? The
   first few that do not are told. A basin that the sheet lacks has no dues. */
static int shares_good(uint64_t which, const struct sheet *sheet, uint64_t units) {
    uint64_t count, whole, differences = 0;
    struct share *shares = shares_of(sheet, units, &count, &whole);
    unsigned __int128 sum = 0;
    for (uint64_t k = 0; k < count; k++) {
        unsigned __int128 due = (unsigned __int128)whole * shares[k].due;
        unsigned __int128 exact = (unsigned __int128)sheet->total * shares[k].weight;
        sum += shares[k].due;
        if ((due > exact ? due - exact : exact - due) < whole || differences++ >= TOLD) continue;
        printf("case %" PRIu64 ", pf_levy: label %s of weight %" PRIu64 " in %" PRIu64 " owes %" PRIu64 " of %" PRIu64
               "\n", which, text_of(shares[k].first, shares[k].rest).bytes, shares[k].weight, whole, shares[k].due,
               sheet->total);
    }
    int adds_up = count == 0 || sum == sheet->total;
    if (!adds_up) printf("case %" PRIu64 ", pf_levy: the dues do not add up to the total\n", which);
    free(shares);
    return differences == 0 && adds_up;
}

/* The directions of a sheet, and what pf_label wrote for it. */
struct labelled {
    uint64_t cells;
    const uint8_t *dirs;
    const uint32_t *areas, *basins;
    const uint64_t *labels;
};

/* Slices for a sheet with one basin, of the size of another sheet. */
struct alone {
    uint8_t *dirs;
    uint32_t *areas, *basins, *work;
    uint64_t *labels;
};

static struct alone new_alone(uint64_t cells) {
    struct alone alone = {malloc(cells), malloc(4 * cells), malloc(4 * cells), malloc(32 * cells), malloc(16 * cells)};
    if (!alone.dirs || !alone.areas || !alone.basins || !alone.work || !alone.labels) exit(2);
    return alone;
}

static void free_alone(struct alone *alone) {
    free(alone->dirs), free(alone->areas), free(alone->basins), free(alone->work), free(alone->labels);
}

/* Is a cell alone as on the whole sheet, if it is of this basin, and outside if not? */
static int same_cell(const struct labelled *whole, const struct alone *alone, uint32_t basin, uint64_t cell) {
    if (whole->dirs[cell] == 0 || whole->basins[cell] != basin)
        return alone->areas[cell] == 0 && alone->basins[cell] == 0
               && alone->labels[2 * cell] == 0 && alone->labels[2 * cell + 1] == 0;
    return alone->areas[cell] == whole->areas[cell] && alone->basins[cell] == 1
           && alone->labels[2 * cell] == whole->labels[2 * cell]
           && alone->labels[2 * cell + 1] == whole->labels[2 * cell + 1];
}

/* Labels the sheet with all basins but one set to 0. Has that basin the same areas and labels? */
static int basin_alone(const struct sheet *sheet, const struct labelled *whole, struct alone *alone, uint32_t basin) {
    uint64_t n = whole->cells, lent = sheet->rows;
    for (uint64_t cell = 0; cell < n; cell++) {
        alone->dirs[cell] = whole->basins[cell] == basin ? whole->dirs[cell] : 0;
        alone->areas[cell] = alone->basins[cell] = ~0u;
        alone->labels[2 * cell] = alone->labels[2 * cell + 1] = ~0ull;
    }
    int good = pf_label(sheet->rows, sheet->cols, sheet->depth, sheet->least, sheet->split, alone->dirs, n,
                        sheet->lent[WEIGHTS].before, lent, alone->areas, n, alone->labels, 2 * n, alone->basins, n,
                        alone->work, 8 * n) == 0;
    for (uint64_t cell = 0; good && cell < n; cell++) good = same_cell(whole, alone, basin, cell);
    return good;
}

/* Has each basin of an accepted sheet the areas and labels that it has alone? Of many basins some are tried: the first,
   the last and others between them. */
static int basins_good(uint64_t which, const struct sheet *sheet) {
    struct labelled whole = {sheet->rows * sheet->cols, sheet->lent[DIRS].before, sheet->lent[AREAS].places,
                             sheet->lent[BASINS].places, sheet->lent[LABELS].places};
    struct alone alone = new_alone(whole.cells);
    uint64_t count = 0, tried = ALONE_CELLS / whole.cells + 2;
    int good = 1;
    for (uint64_t cell = 0; cell < whole.cells; cell++)
        if (whole.basins[cell] > count) count = whole.basins[cell];
    if (tried > count) tried = count;
    for (uint64_t k = 0; k < tried; k++) {
        uint32_t basin = (uint32_t)(tried == 1 ? 1 : 1 + k * (count - 1) / (tried - 1));
        if (basin_alone(sheet, &whole, &alone, basin)) continue;
        printf("case %" PRIu64 ", pf_label: basin %" PRIu32 " of %" PRIu64 " is another alone\n", which, basin, count);
        good = 0;
    }
    free_alone(&alone);
    return good;
}

/* A call with so many slices. */
static uint64_t call_with(struct sheet *sheet, int slices) {
    struct lent *lent = sheet->lent;
    uint64_t rows = sheet->rows, cols = sheet->cols, depth = sheet->depth, least = sheet->least, split = sheet->split;
    if (slices == OF_LABEL)
        return pf_label(rows, cols, depth, least, split, LENT(DIRS), LENT(WEIGHTS), LENT(AREAS), LENT(LABELS),
                        LENT(BASINS), LENT(WORK));
    if (slices == OF_INDEX)
        return pf_index(rows, cols, depth, least, split, LENT(DIRS), LENT(WEIGHTS), LENT(AREAS), LENT(LABELS),
                        LENT(BASINS), LENT(WORK), LENT(UNITS), LENT(OUTLETS), LENT(COUNTS), LENT(UNIT_BASINS));
    return pf_levy(rows, cols, depth, least, split, LENT(DIRS), LENT(WEIGHTS), LENT(AREAS), LENT(LABELS), LENT(BASINS),
                   LENT(WORK), LENT(UNITS), LENT(OUTLETS), LENT(COUNTS), LENT(UNIT_BASINS), (uint32_t)sheet->basin,
                   sheet->total, LENT(DUES));
}

/* One call with the slices as they are before it. */
static int sheet_call(uint64_t which, struct sheet *sheet, int slices, uint64_t expected) {
    lend(sheet->lent, slices);
    uint64_t answer = call_with(sheet, slices);
    int good = answer == expected;
    good &= as_expected(which, sheet->lent, slices);
    if (good && slices == OF_LEVY && answer % 256 == 0) good = shares_good(which, sheet, answer / 256);
    if (good && slices == OF_LABEL && answer == 0) good = basins_good(which, sheet);
    if (good) return 1;
    const char *call = slices == OF_LABEL ? "pf_label" : slices == OF_INDEX ? "pf_index" : "pf_levy";
    printf("case %" PRIu64 ", %s: %" PRIu64 " x %" PRIu64 ", depth %" PRIu64 ", least %" PRIu64 ", split %" PRIu64
           ": answer %" PRIu64 ", expected %" PRIu64 "\n", which, call, sheet->rows, sheet->cols, sheet->depth,
           sheet->least, sheet->split, answer, expected);
    if (slices == OF_LEVY)
        printf("case %" PRIu64 ": the basin is %" PRIu64 ", the total %" PRIu64 "\n", which, sheet->basin,
               sheet->total);
    return 0;
}

/* A case of pf_label, pf_index or pf_levy, told by its number of slices. Directions and weights must stay as they
   are. */
static int sheet_case(uint64_t which, int slices) {
    struct sheet sheet = {.lent = {{.name = "directions", .width = 1}, {.name = "weights", .width = 2},
                                   {.name = "areas", .width = 4}, {.name = "labels", .width = 8, .of_labels = 1},
                                   {.name = "basins", .width = 4}, {.name = "work places", .width = 4},
                                   {.name = "labels of units", .width = 8, .of_labels = 1},
                                   {.name = "outlets of units", .width = 4}, {.name = "counts of units", .width = 4},
                                   {.name = "basins of units", .width = 4}, {.name = "dues of units", .width = 8}}};
    if (slices == OF_LEVY) sheet.basin = number(), sheet.total = number();
    sheet.rows = number(), sheet.cols = number(), sheet.depth = number(), sheet.least = number();
    sheet.split = number();
    for (int i = 0; i < slices; i++) sheet.lent[i].length = number();
    take_slices(sheet.lent, slices);
    uint64_t expected = number();
    take_expected(sheet.lent, slices, READ_ONLY);
    int good = sheet_call(which, &sheet, slices, expected);
    if (change_odd(sheet.lent, slices)) good &= sheet_call(which, &sheet, slices, expected);
    release(sheet.lent, slices);
    return good;
}

/* A lookup: the basin, the leading digits, start and length before the call, and what it must give. */
struct lookup {
    uint64_t basin, first, rest, start, length, answer, expected_start, expected_length;
};

/* The lent slices of pf_lookup. */
enum { ENTRIES, ENTRY_BASINS, OF_LOOKUP };

static int lookup_call(uint64_t which, const struct lookup *lookup, struct lent *lent) {
    size_t start = lookup->start, length = lookup->length;
    lend(lent, OF_LOOKUP);
    uint32_t answer = pf_lookup((uint32_t)lookup->basin, lookup->first, lookup->rest, LENT(ENTRIES),
                                LENT(ENTRY_BASINS), &start, &length);
    int good = answer == lookup->answer && start == lookup->expected_start && length == lookup->expected_length;
    if (!good)
        printf("case %" PRIu64 ", pf_lookup: basin %" PRIu64 ", %s in %" PRIu64 " numbers and %" PRIu64 " basins: "
               "answer %" PRIu32 ", start %zu, length %zu, expected %" PRIu64 ", %" PRIu64 ", %" PRIu64 "\n", which,
               lookup->basin, text_of(lookup->first, lookup->rest).bytes, lent[ENTRIES].length,
               lent[ENTRY_BASINS].length, answer, start, length, lookup->answer, lookup->expected_start,
               lookup->expected_length);
    return good & as_expected(which, lent, OF_LOOKUP);
}

/* A case of pf_lookup. Labels and basins must stay as they are. */
static int lookup_case(uint64_t which) {
    struct lookup lookup = {.basin = number()};
    struct lent lent[] = {{.name = "looked-up labels", .width = 8, .of_labels = 1},
                          {.name = "looked-up basins", .width = 4}};
    lookup.first = number(), lookup.rest = number();
    for (int i = 0; i < OF_LOOKUP; i++) lent[i].length = number();
    take_slices(lent, OF_LOOKUP), take_expected(lent, OF_LOOKUP, OF_LOOKUP);
    lookup.start = number(), lookup.length = number(), lookup.answer = number();
    lookup.expected_start = number(), lookup.expected_length = number();
    int good = lookup_call(which, &lookup, lent);
    if (change_odd(lent, OF_LOOKUP) | change_past(&lent[ENTRY_BASINS], lent[ENTRIES].length / 2))
        good &= lookup_call(which, &lookup, lent);
    release(lent, OF_LOOKUP);
    return good;
}

/* A label as it is asked about: its basin, then its two numbers. */
struct asked {
    uint64_t basin, first, rest;
};

/* The text of a label with its basin. */
static struct text text_of_asked(struct asked label) {
    struct text text;
    snprintf(text.bytes, sizeof text.bytes, "%" PRIu64 " %" PRIu64 " of basin %" PRIu64, label.first, label.rest,
             label.basin);
    return text;
}

/* A call of pf_flow, or of pf_outlet_flow. */
static uint32_t ask(int to_outlet, uint64_t depth, uint64_t least, struct asked p, struct asked q) {
    uint32_t p_basin = (uint32_t)p.basin, q_basin = (uint32_t)q.basin;
    return to_outlet ? pf_outlet_flow(depth, p_basin, p.first, p.rest, q_basin, q.first, q.rest)
                     : pf_flow(depth, least, p_basin, p.first, p.rest, q_basin, q.first, q.rest);
}

static int flow_case(uint64_t which, int to_outlet) {
    uint64_t depth = number(), least = to_outlet ? 0 : number();
    struct asked p, q;
    take(&p, sizeof p), take(&q, sizeof q);
    uint64_t expected = number();
    uint32_t answer = ask(to_outlet, depth, least, p, q);
    if (answer == expected) return 1;
    printf("case %" PRIu64 ", %s: depth %" PRIu64 ", ", which, to_outlet ? "pf_outlet_flow" : "pf_flow", depth);
    if (!to_outlet) printf("least %" PRIu64 ", ", least);
    printf("from %s past %s: answer %" PRIu32 ", expected %" PRIu64 "\n", text_of_asked(q).bytes,
           text_of_asked(p).bytes, answer, expected);
    return 0;
}

/* Every two labels of a sheet, by pf_outlet_flow and by pf_flow. The first few differences are told. */
static int labels_case(uint64_t which) {
    uint64_t depth = number(), least = number(), count = number(), differences = 0;
    struct asked *labels = slice(sizeof *labels * count);
    uint8_t *to_outlet = slice(count * count), *to_cells = slice(count * count);
    for (uint64_t i = 0; i < count * count; i++) {
        struct asked p = labels[i / count], q = labels[i % count];
        uint32_t answer = ask(1, depth, least, p, q), flow = ask(0, depth, least, p, q);
        if (answer == to_outlet[i] && flow == to_cells[i]) continue;
        if (differences++ < TOLD)
            printf("case %" PRIu64 ", labels of a sheet: depth %" PRIu64 ", least %" PRIu64 ", from %s past %s: "
                   "pf_outlet_flow %" PRIu32 ", expected %d; pf_flow %" PRIu32 ", expected %d\n", which, depth, least,
                   text_of_asked(q).bytes, text_of_asked(p).bytes, answer, to_outlet[i], flow, to_cells[i]);
    }
    if (differences > TOLD)
        printf("case %" PRIu64 ": %" PRIu64 " of %" PRIu64 " pairs differ\n", which, differences, count * count);
    free(labels), free(to_outlet), free(to_cells);
    return differences == 0;
}

/* Words of eight directions. The first few differences are told. */
static int words_case(uint64_t which) {
    uint64_t count = number(), differences = 0;
    uint64_t *words = slice(8 * count);
    uint8_t *expected = slice(count);
    for (uint64_t i = 0; i < count; i++) {
        uint32_t answer = pf_first_bad(words[i]);
        if (answer == expected[i]) continue;
        if (differences++ < TOLD)
            printf("case %" PRIu64 ", pf_first_bad: word 0x%016" PRIx64 ": answer %" PRIu32 ", expected %d\n", which,
                   words[i], answer, expected[i]);
    }
    if (differences > TOLD)
        printf("case %" PRIu64 ": %" PRIu64 " of %" PRIu64 " words differ\n", which, differences, count);
    free(words), free(expected);
    return differences == 0;
}

/* The lent slices of pf_flow_pairs. */
enum { P, P_BASINS, Q, Q_BASINS, ANSWERS, OF_PAIRS };

/* The label at a place of a slice of labels, with its basin. */
static struct asked asked_at(const struct lent *lent, int labels, int basins, uint64_t place) {
    const uint64_t *numbers = lent[labels].before;
    const uint32_t *of = lent[basins].before;
    return (struct asked){place < lent[basins].length ? of[place] : 0, numbers[2 * place], numbers[2 * place + 1]};
}

static uint64_t pairs_of(const struct lent *lent) {
    return (lent[P].length < lent[Q].length ? lent[P].length : lent[Q].length) / 2;
}

/* Tells the first few answers that differ, with the labels at their place. */
static void tell_answers(uint64_t which, uint64_t depth, uint64_t least, const struct lent *lent) {
    const uint8_t *given = lent[ANSWERS].places, *expected = lent[ANSWERS].expected;
    uint64_t differences = 0;
    for (uint64_t i = 0; i < lent[ANSWERS].length; i++) {
        if (given[i] == expected[i] || differences++ >= TOLD) continue;
        printf("case %" PRIu64 ", pf_flow_pairs: depth %" PRIu64 ", least %" PRIu64 ", place %" PRIu64 ", ", which,
               depth, least, i);
        if (i < pairs_of(lent))
            printf("from %s past %s: ", text_of_asked(asked_at(lent, Q, Q_BASINS, i)).bytes,
                   text_of_asked(asked_at(lent, P, P_BASINS, i)).bytes);
        else
            printf("past the last pair: ");
        printf("%d, expected %d\n", given[i], expected[i]);
    }
    if (differences > TOLD)
        printf("case %" PRIu64 ": %" PRIu64 " of %" PRIu64 " places differ\n", which, differences,
               lent[ANSWERS].length);
}

static int pairs_call(uint64_t which, uint64_t depth, uint64_t least, struct lent *lent, uint64_t expected) {
    lend(lent, OF_PAIRS);
    uint64_t answer = pf_flow_pairs(depth, least, LENT(P), LENT(P_BASINS), LENT(Q), LENT(Q_BASINS), LENT(ANSWERS));
    if (answer != expected)
        printf("case %" PRIu64 ", pf_flow_pairs: depth %" PRIu64 ", least %" PRIu64 ", %" PRIu64 " and %" PRIu64
               " numbers, %" PRIu64 " and %" PRIu64 " basins, %" PRIu64 " places: answer %" PRIu64 ", expected %" PRIu64
               "\n", which, depth, least, lent[P].length, lent[Q].length, lent[P_BASINS].length,
               lent[Q_BASINS].length, lent[ANSWERS].length, answer, expected);
    tell_answers(which, depth, least, lent);
    return as_expected(which, lent, OF_PAIRS) & (answer == expected);
}

/* A case of pf_flow_pairs. Labels and basins must stay as they are. */
static int pairs_case(uint64_t which) {
    struct lent lent[] = {{.name = "labels of P", .width = 8, .of_labels = 1}, {.name = "basins of P", .width = 4},
                          {.name = "labels of Q", .width = 8, .of_labels = 1}, {.name = "basins of Q", .width = 4},
                          {.name = "answers", .width = 1}};
    uint64_t depth = number(), least = number();
    for (int i = 0; i < OF_PAIRS; i++) lent[i].length = number();
    take_slices(lent, OF_PAIRS);
    uint64_t expected = number();
    take_expected(lent, OF_PAIRS, ANSWERS);
    int good = pairs_call(which, depth, least, lent, expected);
    if (change_odd(lent, OF_PAIRS) | change_past(&lent[P_BASINS], pairs_of(lent))
        | change_past(&lent[Q_BASINS], pairs_of(lent)))
        good &= pairs_call(which, depth, least, lent, expected);
    release(lent, OF_PAIRS);
    return good;
}

/* The lent slices of pf_check_plan. */
enum { INDEX, PLAN, PLAN_WORK, OF_PLAN };

/* The text of an answer that is a refusal number + 256 x place. */
static struct text text_of_answer(uint64_t answer) {
    struct text text;
    snprintf(text.bytes, sizeof text.bytes, "%" PRIu64 " (number %" PRIu64 ", place %" PRIu64 ")", answer, answer % 256,
             answer / 256);
    return text;
}

/* Tells the first few work places that differ. */
static void tell_work(uint64_t which, const struct lent *work) {
    const uint32_t *given = work->places, *expected = work->expected;
    uint64_t differences = 0;
    for (uint64_t i = 0; i < work->length; i++) {
        if (given[i] == expected[i] || differences++ >= TOLD) continue;
        printf("case %" PRIu64 ", pf_check_plan: work place %" PRIu64 " is %" PRIu32 ", expected %" PRIu32 "\n", which,
               i, given[i], expected[i]);
    }
}

static int plan_call(uint64_t which, struct lent *lent, uint64_t expected) {
    lend(lent, OF_PLAN);
    uint64_t answer = pf_check_plan(LENT(INDEX), LENT(PLAN), LENT(PLAN_WORK));
    if (answer != expected)
        printf("case %" PRIu64 ", pf_check_plan: %" PRIu64 " numbers of the index, %" PRIu64 " of the plan, %" PRIu64
               " work places: answer %s, expected %s\n", which, lent[INDEX].length, lent[PLAN].length,
               lent[PLAN_WORK].length, text_of_answer(answer).bytes, text_of_answer(expected).bytes);
    tell_work(which, &lent[PLAN_WORK]);
    return as_expected(which, lent, OF_PLAN) & (answer == expected);
}

/* A case of pf_check_plan. Index and plan must stay as they are. */
static int plan_case(uint64_t which) {
    struct lent lent[] = {{.name = "labels of the index", .width = 8, .of_labels = 1},
                          {.name = "labels of the plan", .width = 8, .of_labels = 1},
                          {.name = "work places", .width = 4}};
    for (int i = 0; i < OF_PLAN; i++) lent[i].length = number();
    take_slices(lent, OF_PLAN);
    uint64_t expected = number();
    take_expected(lent, OF_PLAN, PLAN_WORK);
    int good = plan_call(which, lent, expected);
    if (change_odd(lent, OF_PLAN)) good &= plan_call(which, lent, expected);
    release(lent, OF_PLAN);
    return good;
}

/* 1 if all is as expected, 0 if not, -1 if there is no such kind of case. */
static int run_case(int kind, uint64_t which) {
    switch (kind) {
    case 'L': return sheet_case(which, OF_LABEL);
    case 'I': return sheet_case(which, OF_INDEX);
    case 'V': return sheet_case(which, OF_LEVY);
    case 'P': return lookup_case(which);
    case 'F': return flow_case(which, 0);
    case 'O': return flow_case(which, 1);
    case 'S': return labels_case(which);
    case 'W': return words_case(which);
    case 'M': return pairs_case(which);
    case 'K': return plan_case(which);
    default: return -1;
    }
}

int main(void) {
    int kind;
    for (uint64_t which = 0; (kind = getchar()) != EOF; which++) {
        int good = run_case(kind, which);
        good == 1 ? passed++ : failed++;
        if (good == -1) break;
    }
    printf("%" PRIu64 " passed, %" PRIu64 " failed\n", passed, failed + (passed == 0));
    return failed != 0 || passed == 0;
}
