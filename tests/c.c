/* Calls the library from C, on document 01's figures. Each buffer is of exact size and on the heap, so that valgrind
   sees a byte read or written beside it. Prints what failed; exits 0 if nothing did. */
#include "gezdunar.h"
#include <stdio.h>
#include <stdlib.h>
#include <string.h>

static int failures;

static void check(const char *what, bool holds) {
    if (!holds) {
        printf("failed: %s\n", what);
        failures++;
    }
}

/* A copy of n bytes that is exactly n bytes long; kept until the program ends. For n = 0 it is the end of some bytes:
   a pointer that is not null, with nothing behind it. */
static void *copy_of(const void *bytes, size_t n) {
    char *p = malloc(n > 0 ? n : 8);
    if (p == NULL) {
        printf("failed: no memory\n");
        exit(1);
    }
    return n > 0 ? memcpy(p, bytes, n) : p + 8;
}

/* Lets a test write { .. } for a buffer of exact size. */
#define LENT(type, ...) ((type *)copy_of((const type[]){__VA_ARGS__}, sizeof((const type[]){__VA_ARGS__})))

/* The constant width table as the calls are handed it. */
#define WIDTHS gezdunar_standard_widths, GEZDUNAR_WIDTHS

/* Picture 3 rows by 5 columns, blocks 2 rows by 4 columns, 2 bands, NBPP 8. */
static struct gezdunar_grid small(uint8_t mode) { return gezdunar_grid(3, 5, 2, 8, mode, 'F', 2, 4); }

/* The bytes 0, 1, 2 and so on. */
static const uint8_t *counting(size_t n) {
    uint8_t numbers[64];
    for (int i = 0; i < 64; i++) numbers[i] = (uint8_t)i;
    return copy_of(numbers, n);
}

static bool has_shape(struct gezdunar_shape s, size_t bands, size_t rows, size_t columns) {
    return s.number == 0 && s.bands == bands && s.rows == rows && s.columns == columns;
}

static bool refused(struct gezdunar_shape s, uint32_t number) {
    return s.number == number && s.bands == 0 && s.rows == 0 && s.columns == 0;
}

static bool pair(const uint8_t *out, uint8_t first, uint8_t second) { return out[0] == first && out[1] == second; }

static void version_and_texts(void) {
    check("version 0.7.0", GEZDUNAR_VERSION == 7000);
    check("the header and the archive belong together", gezdunar_version() == GEZDUNAR_VERSION);
    check("accepted in words", strcmp(gezdunar_refusal_text(GEZDUNAR_ACCEPTED), "accepted") == 0);
    check("7 in words", strcmp(gezdunar_refusal_text(7), "the image ends before the block does") == 0);
    check("26 in words", strcmp(gezdunar_refusal_text(GEZDUNAR_SAMPLE_BITS), "a sample has a bit above NBPP") == 0);
    const char *no_name = "the mode is none of B, P, R and S, or the edge rule none of T and F";
    check("99 in words", strcmp(gezdunar_refusal_text(GEZDUNAR_NO_MODE), no_name) == 0);
    const char *unknown = gezdunar_refusal_text(98);
    check("an unknown number in words", strcmp(unknown, "refused with a number that has no name here") == 0);
    for (uint32_t n = 0; n < 100; n++) {
        bool is_named = n <= 24 || n == 26 || n == 27 || n == 33 || n == 99;
        check("every number has words", is_named == (strcmp(gezdunar_refusal_text(n), unknown) != 0));
    }
}

static bool same_grid(struct gezdunar_grid a, struct gezdunar_grid b) {
    return a.nrows == b.nrows && a.ncols == b.ncols && a.bands == b.bands && a.nbpp == b.nbpp && a.imode == b.imode
        && a.edges == b.edges && a.nppbh == b.nppbh && a.nppbv == b.nppbv && a.nbpr == b.nbpr && a.nbpc == b.nbpc;
}

static void grids(void) {
    struct gezdunar_grid grid = {.nrows = 7, .ncols = 10, .bands = 3, .nbpp = 12, .imode = 'R', .edges = 'T',
        .nppbh = 4, .nppbv = 2, .nbpr = 3, .nbpc = 4};
    check("maker", same_grid(gezdunar_grid(7, 10, 3, 12, 'R', 'T', 2, 4), grid));
    check("accepted", gezdunar_grid_check(grid, WIDTHS) == 0);
    grid.edges = 'F';
    check("full", same_grid(gezdunar_grid(7, 10, 3, 12, 'R', 'F', 2, 4), grid));
    check("full, accepted", gezdunar_grid_check(grid, WIDTHS) == 0);
    grid.nbpr = 2;
    check("NBPR that does not follow", gezdunar_grid_check(grid, WIDTHS) == GEZDUNAR_BLOCK_COUNTS);
    grid = gezdunar_grid(7, 10, 3, 12, 'Q', 'X', 0, 4);
    check("a block side 0", grid.imode == 'Q' && grid.nppbv == 0 && grid.nbpr == 3 && grid.nbpc == 0);
    check("the maker takes any byte", grid.edges == 'X');
    check("no mode, before question 1", gezdunar_grid_check(grid, WIDTHS) == GEZDUNAR_NO_MODE);
    check("limits", gezdunar_grid_check(gezdunar_grid(7, 10, 3, 12, 'P', 'F', 0, 4), WIDTHS) == GEZDUNAR_LIMITS);
    check("width", gezdunar_grid_check(gezdunar_grid(7, 10, 3, 17, 'P', 'F', 2, 4), WIDTHS) == GEZDUNAR_WIDTH);
    check("one block of any width", gezdunar_grid_check(gezdunar_grid(2, 9000, 1, 8, 'B', 'T', 2, 9000), WIDTHS) == 0);
    const struct gezdunar_grid tall = gezdunar_grid(9000, 2, 1, 8, 'B', 'T', 9000, 9000);
    check("not the picture's width", gezdunar_grid_check(tall, WIDTHS) == 1);
    grid = gezdunar_grid(UINT32_MAX, UINT32_MAX, 1, 8, 'B', 'F', 1, 2);
    check("the largest sides", grid.nbpr == 0x80000000 && grid.nbpc == UINT32_MAX);
}

/* The rule takes a byte between imode and nppbh that no other field has. */
static void grid_in_memory(void) {
    check("where imode stands", offsetof(struct gezdunar_grid, imode) == 16);
    check("where edges stands", offsetof(struct gezdunar_grid, edges) == 17);
    check("where nppbh stands", offsetof(struct gezdunar_grid, nppbh) == 20);
    check("bytes of a grid", sizeof(struct gezdunar_grid) == 36);
}

static void every_byte_as_a_rule(void) {
    struct gezdunar_grid grid = small('P');
    for (uint32_t byte = 0; byte < 256; byte++) {
        grid.edges = (uint8_t)byte;
        check("the rules", gezdunar_grid_check(grid, WIDTHS) == (byte == 'T' || byte == 'F' ? 0 : GEZDUNAR_NO_MODE));
    }
    grid.imode = 'T', grid.edges = 'P';
    check("rule and mode in each other's place", gezdunar_grid_check(grid, WIDTHS) == GEZDUNAR_NO_MODE);
}

/* With a byte that is no rule every call on a grid answers 99 and zeros, before question 1, and writes nothing. */
static void no_rule_in_reads(struct gezdunar_grid g) {
    const uint8_t *image = counting(64);
    const uint32_t *none = copy_of(NULL, 0);
    uint8_t *out = LENT(uint8_t, 0xAA, 0xAA);
    check("no rule: check", gezdunar_grid_check(g, WIDTHS) == GEZDUNAR_NO_MODE);
    struct gezdunar_sizes z = gezdunar_grid_sizes(g, WIDTHS);
    check("no rule: sizes", z.number == 99 && z.sample_bytes == 0 && z.band_bytes == 0 && z.block_bytes == 0);
    check("no rule: more sizes", z.image_bytes == 0 && z.blocks == 0 && z.mark_words == 0);
    check("no rule: decode", refused(gezdunar_decode_block(image, 64, g, WIDTHS, 1, 1, 0, true, none, 0, out, 2), 99));
    struct gezdunar_place p = gezdunar_whole_block(image, 64, g, WIDTHS, 1, 0);
    check("no rule: whole block", p.number == 99 && p.start == 0 && p.length == 0);
    struct gezdunar_shape w = gezdunar_read_window(image, 64, g, WIDTHS, 2, 4, 1, 1, true, none, 0, out, 2);
    check("no rule: window", refused(w, 99));
    check("no rule: a read writes nothing", pair(out, 0xAA, 0xAA));
}

static bool is_99(struct gezdunar_answer a) { return a.number == 99 && a.first == 0 && a.second == 0; }

static void no_rule_in_writes(struct gezdunar_grid g) {
    uint8_t *image = (uint8_t *)counting(64);
    uint64_t *marks = LENT(uint64_t, 0xA);
    const uint8_t *data = LENT(uint8_t, 1, 2);
    check("no rule: start", is_99(gezdunar_start(image, 64, marks, 1, g, WIDTHS)));
    check("no rule: encode", is_99(gezdunar_encode_block(image, 64, marks, 1, g, WIDTHS, 1, 1, 2, 1, 1, data, 2)));
    check("no rule: skip", is_99(gezdunar_skip_block(image, 64, marks, 1, g, WIDTHS, 0, 0)));
    check("no rule: progress", is_99(gezdunar_progress(marks, 1, g, WIDTHS)));
    check("no rule: finalize", is_99(gezdunar_finalize(image, 64, marks, 1, g, WIDTHS)));
    uint8_t *scratch = LENT(uint8_t, 0xAA, 0xAA);
    struct gezdunar_relaid r = gezdunar_relay(image, 64, marks, 1, g, WIDTHS, scratch, 2);
    check("no rule: relay", r.number == GEZDUNAR_NO_MODE && same_grid(r.grid, g) && pair(scratch, 0xAA, 0xAA));
    check("no rule: a write writes nothing", *marks == 0xA && memcmp(image, counting(64), 64) == 0);
}

static void no_rule_in_masks(struct gezdunar_grid g) {
    const uint8_t *table = LENT(uint8_t, 0, 0, 0, 10, 0, 0, 0, 0, 0, 0);
    const uint64_t *marks = LENT(uint64_t, 1);
    uint32_t *offsets = LENT(uint32_t, 7, 7, 7, 7);
    uint8_t *out = copy_of(table, 10);
    struct gezdunar_parsed m = gezdunar_mask_parse(table, 10, g, WIDTHS);
    check("no rule: parse", m.number == 99 && m.used == 0 && m.mask.image_data_offset == 0);
    out[3] = 0xAA;
    struct gezdunar_written w = gezdunar_mask_write(g, WIDTHS, 0, 0, 0, 0, NULL, 0, NULL, 0, out, 10);
    check("no rule: mask write", w.number == 99 && w.bytes == 0 && out[3] == 0xAA);
    struct gezdunar_present h = gezdunar_has_block(table, 10, g, WIDTHS, 0, 0, 0);
    check("no rule: has block", h.number == 99 && !h.present);
    struct gezdunar_block_offset o = gezdunar_get_block_offset(table, 10, g, WIDTHS, 0, 0, 0);
    check("no rule: block offset", o.number == 99 && !o.given && o.offset == 0);
    m = gezdunar_mask_from_marks(marks, 1, g, WIDTHS, offsets, 4);
    check("no rule: mask from marks", m.number == 99 && m.used == 0 && m.mask.block_mask_record_length == 0);
    check("no rule: no offsets", offsets[0] == 7 && offsets[1] == 7 && offsets[2] == 7 && offsets[3] == 7);
}

static void no_rule(void) {
    static const uint8_t bytes[] = {0, 'X', 't', 'f', 'B', ' ', 255};
    for (size_t i = 0; i < sizeof bytes; i++) {
        for (uint32_t bands = 0; bands < 3; bands += 2) {
            struct gezdunar_grid g = small('P');
            g.edges = bytes[i], g.bands = bands;
            no_rule_in_reads(g);
            no_rule_in_writes(g);
            no_rule_in_masks(g);
        }
    }
}

/* The fields of the parts below. */
static struct gezdunar_subheader fields(void) {
    struct gezdunar_subheader s = {.abpp = 11, .pjust = 'L', .grid = gezdunar_grid(203, 317, 5, 12, 'P', 'F', 64, 48)};
    memcpy(s.pvtype, "SI ", 3);
    memcpy(s.irep, "MULTI   ", 8);
    memcpy(s.icat, "\xFF\x00S     ", 8);
    memcpy(s.ic, "NM", 2);
    return s;
}

static const char FIRST[] = "0000020300000317SI MULTI   \xFF\x00S     11L";
static const char SECOND[] = "NM", THIRD[] = "P000700040048006412";

static bool same_fields(struct gezdunar_subheader a, struct gezdunar_subheader b) {
    return memcmp(a.pvtype, b.pvtype, 3) == 0 && memcmp(a.irep, b.irep, 8) == 0 && memcmp(a.icat, b.icat, 8) == 0
        && a.abpp == b.abpp && a.pjust == b.pjust && memcmp(a.ic, b.ic, 2) == 0 && same_grid(a.grid, b.grid);
}

/* Reads parts in buffers of exact size, under a rule. Beside a refusal every field must be zero. */
static struct gezdunar_read_subheader read_under(
    uint8_t edges, const char *first, size_t n, const char *second, const char *third) {
    const uint8_t *a = copy_of(first, n), *b = copy_of(second, 2), *c = copy_of(third, 19);
    struct gezdunar_read_subheader r = gezdunar_subheader_read(a, n, b, 2, c, 19, 5, edges, WIDTHS);
    check("zeros beside a refusal", r.number == 0 || same_fields(r.subheader, (struct gezdunar_subheader){0}));
    return r;
}

static struct gezdunar_read_subheader read_parts(const char *first, size_t n, const char *second, const char *third) {
    return read_under('F', first, n, second, third);
}

/* The number of parts whose PVTYPE is this text. */
static uint32_t read_pvtype(const char *text) {
    char first[39];
    memcpy(first, FIRST, 39);
    memcpy(first + 16, text, 3);
    return read_parts(first, 38, SECOND, THIRD).number;
}

static void pvtypes_read(void) {
    static const char *const named[] = {"INT", "SI ", "R  ", "C  ", "B  "};
    static const char *const others[] = {" SI", "si ", "Si ", "SI\0", "int", " R ", "  C", "B B", "   ", "\0\0\0"};
    for (int i = 0; i < 5; i++) check("named PVTYPE", read_pvtype(named[i]) == 0);
    for (int i = 0; i < 10; i++) check("no named PVTYPE", read_pvtype(others[i]) == GEZDUNAR_NAMED_VALUE);
}

static void subheaders_read(void) {
    struct gezdunar_read_subheader r = read_parts(FIRST, 38, SECOND, THIRD);
    check("read a subheader", r.number == 0 && same_fields(r.subheader, fields()));
    check("a short part", read_parts(FIRST, 37, "XX", THIRD).number == GEZDUNAR_SUBHEADER_PART);
    check("no digits", read_parts(FIRST, 38, "XX", "X0007000400480064 8").number == GEZDUNAR_SUBHEADER_PART);
    check("no named IC", read_parts(FIRST, 38, "C8", "P000000000000000000").number == GEZDUNAR_NAMED_VALUE);
    check("IC in small letters", read_parts(FIRST, 38, "nm", THIRD).number == GEZDUNAR_NAMED_VALUE);
    check("no named IMODE", read_parts(FIRST, 38, SECOND, "Q000700040048006412").number == GEZDUNAR_NAMED_VALUE);
    check("limits", read_parts(FIRST, 38, SECOND, "P000700040000006417").number == GEZDUNAR_LIMITS);
    check("width", read_parts(FIRST, 38, SECOND, "P000700040048006417").number == GEZDUNAR_WIDTH);
    check("block counts", read_parts(FIRST, 38, SECOND, "P000700030048006412").number == GEZDUNAR_BLOCK_COUNTS);
    r = read_parts(FIRST, 38, SECOND, "P000100010000000012");
    check("zero sides", r.number == 0 && r.subheader.grid.nppbh == 317 && r.subheader.grid.nppbv == 203);
    check("null: read a subheader", gezdunar_subheader_read(NULL, 0, NULL, 0, NULL, 0, 5, 'F', WIDTHS).number == 23);
}

/* The rule is given to the reader, and asked of it before all else. */
static void rules_read(void) {
    struct gezdunar_subheader tight = fields();
    tight.grid.edges = 'T';
    struct gezdunar_read_subheader r = read_under('T', FIRST, 38, SECOND, THIRD);
    check("read under tight", r.number == 0 && same_fields(r.subheader, tight));
    for (uint32_t byte = 0; byte < 256; byte++) {
        uint32_t number = read_under((uint8_t)byte, FIRST, 38, SECOND, THIRD).number;
        check("read under any byte", number == (byte == 'T' || byte == 'F' ? 0 : GEZDUNAR_NO_MODE));
    }
    check("no rule, before 23", read_under(0, FIRST, 37, SECOND, THIRD).number == GEZDUNAR_NO_MODE);
    check("no rule, before 24", read_under('t', FIRST, 38, "XX", THIRD).number == GEZDUNAR_NO_MODE);
    check("no rule, before 1", read_under('X', FIRST, 38, SECOND, "P000700040000006412").number == GEZDUNAR_NO_MODE);
    check("null: no rule", gezdunar_subheader_read(NULL, 0, NULL, 0, NULL, 0, 5, 0, WIDTHS).number == GEZDUNAR_NO_MODE);
}

/* Are these the first n bytes of a part, and after them 0xAA? */
static bool holds(const uint8_t *out, size_t length, const char *part, size_t n) {
    bool so = length >= n && memcmp(out, part, n) == 0;
    for (size_t i = n; i < length; i++) so = so && out[i] == 0xAA;
    return so;
}

/* The number of a write into outputs of i, j and k bytes; where it is refused they must be kept. */
static uint32_t write_parts(struct gezdunar_subheader s, size_t i, size_t j, size_t k) {
    uint8_t before[64];
    memset(before, 0xAA, 64);
    uint8_t *a = copy_of(before, i), *b = copy_of(before, j), *c = copy_of(before, k);
    uint32_t number = gezdunar_subheader_write(s, WIDTHS, a, i, b, j, c, k);
    bool written = holds(a, i, FIRST, 38) && holds(b, j, SECOND, 2) && holds(c, k, THIRD, 19);
    bool kept = holds(a, i, FIRST, 0) && holds(b, j, SECOND, 0) && holds(c, k, THIRD, 0);
    check("all or nothing of a subheader is written", number == 0 ? written : kept);
    return number;
}

static void subheaders_written(void) {
    struct gezdunar_subheader s = fields();
    check("write a subheader", write_parts(s, 38, 2, 19) == 0 && write_parts(s, 40, 9, 20) == 0);
    check("a short output", write_parts(s, 37, 2, 19) == 9 && write_parts(s, 38, 1, 19) == 9);
    check("another short output", write_parts(s, 38, 2, 18) == 9 && write_parts(s, 0, 0, 0) == 9);
    check("null: write a subheader", gezdunar_subheader_write(s, WIDTHS, NULL, 0, NULL, 0, NULL, 0) == 9);
    s.grid.nbpp = 17;
    check("width before output", write_parts(s, 0, 0, 0) == GEZDUNAR_WIDTH);
    s.grid.imode = 'Q';
    check("24 for a mode, not 99", write_parts(s, 38, 2, 19) == GEZDUNAR_NAMED_VALUE);
    s = fields(), s.abpp = 100;
    check("ABPP above 99", write_parts(s, 38, 2, 19) == GEZDUNAR_NAMED_VALUE);
    s = fields(), s.pjust = 'r';
    check("PJUST", write_parts(s, 38, 2, 19) == GEZDUNAR_NAMED_VALUE);
    s = fields(), s.ic[1] = 0;
    check("IC", write_parts(s, 38, 2, 19) == GEZDUNAR_NAMED_VALUE);
    s = fields(), s.pvtype[2] = 0;
    check("PVTYPE", write_parts(s, 38, 2, 19) == GEZDUNAR_NAMED_VALUE);
}

/* The rule is asked for before all else, and not written. */
static void rules_written(void) {
    static const uint8_t bytes[] = {0, 'X', 't', 'f', 'P', 255};
    struct gezdunar_subheader s = fields();
    s.grid.edges = 'T';
    check("write under tight", write_parts(s, 38, 2, 19) == 0);
    for (size_t i = 0; i < sizeof bytes; i++) {
        s = fields(), s.grid.edges = bytes[i];
        check("write under no rule", write_parts(s, 38, 2, 19) == GEZDUNAR_NO_MODE);
        check("no rule, before 9", write_parts(s, 0, 0, 0) == GEZDUNAR_NO_MODE);
        s.grid.nbpp = 17;
        check("no rule, before 2", write_parts(s, 38, 2, 19) == GEZDUNAR_NO_MODE);
        s.grid.imode = 'Q', s.abpp = 100, s.pjust = 'r';
        check("no rule, before 24", write_parts(s, 38, 2, 19) == GEZDUNAR_NO_MODE);
    }
}

/* Block (1,1) in each mode. */
static void figures_a_to_d(void) {
    static const struct { const char *name; uint8_t mode, first, second; } figures[4] = {
        {"figure a", 'B', 48, 56}, {"figure b", 'P', 48, 49}, {"figure c", 'R', 48, 52}, {"figure d", 'S', 24, 56}};
    const uint8_t *image = counting(64);
    const uint32_t *none = copy_of(NULL, 0);
    for (int i = 0; i < 4; i++) {
        uint8_t *out = LENT(uint8_t, 0xAA, 0xAA);
        const struct gezdunar_grid grid = small(figures[i].mode);
        struct gezdunar_shape s = gezdunar_decode_block(image, 64, grid, WIDTHS, 1, 1, 0, true, none, 0, out, 2);
        check(figures[i].name, has_shape(s, 2, 1, 1) && pair(out, figures[i].first, figures[i].second));
    }
}

static void figures_e_to_j(void) {
    uint8_t *out = LENT(uint8_t, 0xAA, 0xAA), *kept = LENT(uint8_t, 0xAA, 0xAA), *empty = copy_of(NULL, 0);
    const uint32_t *twice = LENT(uint32_t, 1, 1), *high = LENT(uint32_t, 2), *none = copy_of(NULL, 0);
    const uint8_t *image = counting(64);
    const uint8_t *fifty = counting(50);
    struct gezdunar_shape s = gezdunar_decode_block(fifty, 50, small('P'), WIDTHS, 1, 1, 0, true, high, 1, out, 2);
    check("figure e", has_shape(s, 2, 1, 1) && pair(out, 48, 49));
    s = gezdunar_decode_block(counting(49), 49, small('P'), WIDTHS, 1, 1, 0, true, high, 1, kept, 2);
    check("figure f", refused(s, 7));
    s = gezdunar_decode_block(image, 64, small('P'), WIDTHS, 2, 0, 0, true, high, 1, kept, 2);
    check("figure g", refused(s, 6));
    s = gezdunar_decode_block(image, 64, small('P'), WIDTHS, 1, 1, 0, false, twice, 2, out, 2);
    check("figure h", has_shape(s, 2, 1, 1) && pair(out, 49, 49));
    s = gezdunar_decode_block(image, 64, small('P'), WIDTHS, 1, 1, 0, false, high, 1, kept, 2);
    check("figure i", refused(s, 8));
    s = gezdunar_decode_block(image, 64, small('P'), WIDTHS, 1, 1, 0, false, none, 0, empty, 0);
    check("figure j", has_shape(s, 0, 1, 1));
    s = gezdunar_decode_block(image, 64, small('Q'), WIDTHS, 1, 1, 0, true, none, 0, kept, 2);
    check("no mode", refused(s, 99));
    check("a refused read writes nothing", pair(kept, 0xAA, 0xAA));
}

static void reads(void) {
    const uint8_t *image = counting(64);
    const uint32_t *none = copy_of(NULL, 0);
    check("grid", gezdunar_grid_check(small('S'), WIDTHS) == 0 && gezdunar_grid_check(small('Q'), WIDTHS) == 99);
    struct gezdunar_sizes z = gezdunar_grid_sizes(small('S'), WIDTHS);
    check("sizes", z.number == 0 && z.sample_bytes == 1 && z.band_bytes == 8 && z.block_bytes == 16);
    check("more sizes", z.image_bytes == 64 && z.blocks == 4 && z.mark_words == 1);
    check("no sizes", gezdunar_grid_sizes(small('Q'), WIDTHS).number == 99);
    struct gezdunar_place p = gezdunar_whole_block(image, 64, small('R'), WIDTHS, 1, 0);
    check("whole block", p.number == 0 && p.start == 32 && p.length == 16);
    p = gezdunar_whole_block(image, 64, small('S'), WIDTHS, 1, 0);
    check("whole block in S", p.number == 0 && p.start == 0 && p.length == 0);
    uint8_t *window = LENT(uint8_t, 0, 0, 0, 0);
    struct gezdunar_shape s = gezdunar_read_window(image, 64, small('B'), WIDTHS, 1, 3, 1, 2, true, none, 0, window, 4);
    check("window", has_shape(s, 2, 1, 2) && pair(window, 7, 20) && pair(window + 2, 15, 28));
}

/* Writes one row of n samples into a started image, and reads it again. It is one block, which lies the same under both
   rules. */
static bool row_is_packed(uint8_t edges, uint32_t nbpp, uint32_t n, const uint8_t *data, size_t data_length,
                          const uint8_t *packed, size_t size) {
    uint8_t *image = copy_of(packed, size), *out = copy_of(data, data_length);
    uint64_t *marks = LENT(uint64_t, ~(uint64_t)0);
    const uint32_t *none = copy_of(NULL, 0);
    memset(image, 0xFF, size);
    memset(out, 0xFF, data_length);
    const struct gezdunar_grid row = gezdunar_grid(1, n, 1, nbpp, 'B', edges, 1, n);
    uint32_t start = gezdunar_start(image, size, marks, 1, row, WIDTHS).number;
    uint32_t write = gezdunar_encode_block(image, size, marks, 1, row, WIDTHS, 0, 0, 1, 1, n, data, data_length).number;
    struct gezdunar_shape s = gezdunar_decode_block(image, size, row, WIDTHS, 0, 0, 0, true, none, 0, out, data_length);
    return start == 0 && write == 0 && *marks == 1 && memcmp(image, packed, size) == 0 && has_shape(s, 1, 1, n)
        && memcmp(out, data, data_length) == 0;
}

static void figures_k_and_l(uint8_t edges) {
    const uint8_t *three = LENT(uint8_t, 0x01, 0x23, 0x04, 0x56, 0x07, 0x89);
    check("figure k", row_is_packed(edges, 12, 3, three, 6, LENT(uint8_t, 0x12, 0x34, 0x56, 0x78, 0x90), 5));
    const uint8_t *ten = LENT(uint8_t, 1, 0, 1, 1, 0, 0, 0, 1, 1, 1);
    check("figure l", row_is_packed(edges, 1, 10, ten, 10, LENT(uint8_t, 0xB1, 0xC0), 2));
}

/* Figure m: NBPP 4, picture 2 by 3, blocks 2 by 2, samples 5 and 9 in block (0,1), which under the rule is these two
   bytes. */
static void figure_m(uint8_t edges, uint8_t first, uint8_t second) {
    uint8_t *image = LENT(uint8_t, 0xFF, 0xFF, 0xFF, 0xFF), *over = LENT(uint8_t, 0xFF, 0xFF, 0xFF, 0xFF);
    uint8_t *block = LENT(uint8_t, 0xAA, 0xAA), *window = LENT(uint8_t, 0xAA, 0xAA);
    uint64_t *marks = LENT(uint64_t, ~(uint64_t)0);
    const uint8_t *data = LENT(uint8_t, 5, 9);
    const struct gezdunar_grid grid = gezdunar_grid(2, 3, 1, 4, 'B', edges, 2, 2);
    check("start", gezdunar_start(image, 4, marks, 1, grid, WIDTHS).number == 0);
    check("write", gezdunar_encode_block(image, 4, marks, 1, grid, WIDTHS, 0, 1, 1, 2, 1, data, 2).number == 0);
    check("figure m", pair(image, 0, 0) && pair(image + 2, first, second) && *marks == 2);
    struct gezdunar_shape s = gezdunar_decode_block(image, 4, grid, WIDTHS, 0, 1, 0, true, NULL, 0, block, 2);
    check("figure m, read", has_shape(s, 1, 2, 1) && pair(block, 5, 9));
    s = gezdunar_read_window(image, 4, grid, WIDTHS, 0, 2, 2, 1, true, NULL, 0, window, 2);
    check("figure m, through a window", has_shape(s, 1, 2, 1) && pair(window, 5, 9));
    struct gezdunar_answer a = gezdunar_encode_block(over, 4, marks, 1, grid, WIDTHS, 0, 1, 1, 2, 1, data, 2);
    check("write over ones", a.number == 0);
    check("figure m over ones", pair(over, 0xFF, 0xFF) && pair(over + 2, first, second));
    s = gezdunar_decode_block(image, 3, grid, WIDTHS, 0, 1, 0, true, NULL, 0, block, 2);
    check("figure m, cut short", refused(s, 7));
}

/* Two bands of 12 bits, picture 3 by 7, blocks 2 by 4: block (1,1) has 1 row and 3 columns inside. Its 24 bytes. */
static void corner_of_12_bits(uint8_t mode, uint8_t edges, const uint8_t *bytes) {
    const uint8_t *data = LENT(uint8_t, 0x0A, 0, 0x0A, 1, 0x0A, 2, 0x0B, 0, 0x0B, 1, 0x0B, 2);
    uint8_t before[96];
    memset(before, 0xFF, 96);
    uint8_t *image = copy_of(before, 96), *block = copy_of(before, 12), *window = copy_of(before, 12);
    uint64_t *marks = LENT(uint64_t, 0);
    const struct gezdunar_grid grid = gezdunar_grid(3, 7, 2, 12, mode, edges, 2, 4);
    check("12 bits", gezdunar_encode_block(image, 96, marks, 1, grid, WIDTHS, 1, 1, 2, 1, 3, data, 12).number == 0);
    check("12 bits, the block", memcmp(image + 72, bytes, 24) == 0);
    check("12 bits, the other blocks", memcmp(image, before, 72) == 0);
    struct gezdunar_shape s = gezdunar_decode_block(image, 96, grid, WIDTHS, 1, 1, 0, true, NULL, 0, block, 12);
    check("12 bits, read", has_shape(s, 2, 1, 3) && memcmp(block, data, 12) == 0);
    s = gezdunar_read_window(image, 96, grid, WIDTHS, 2, 4, 1, 3, true, NULL, 0, window, 12);
    check("12 bits, through a window", has_shape(s, 2, 1, 3) && memcmp(window, data, 12) == 0);
}

static void corners_of_12_bits(void) {
    corner_of_12_bits('P', 'T', (const uint8_t[24]){0xA0, 0x0B, 0x00, 0xA0, 0x10, [12] = 0xB0, 0x1A, 0x02, 0xB0, 0x20});
    corner_of_12_bits('P', 'F', (const uint8_t[24]){0xA0, 0x0B, 0x00, 0xA0, 0x1B, 0x01, 0xA0, 0x2B, 0x02});
    corner_of_12_bits('R', 'T', (const uint8_t[24]){0xA0, 0x0A, 0x01, 0xA0, 0x20, [12] = 0xB0, 0x0B, 0x01, 0xB0, 0x20});
    corner_of_12_bits('R', 'F', (const uint8_t[24]){0xA0, 0x0A, 0x01, 0xA0, 0x20, 0, 0xB0, 0x0B, 0x01, 0xB0, 0x20});
    corner_of_12_bits('B', 'T', (const uint8_t[24]){0xA0, 0x0A, 0x01, 0xA0, 0x20, [12] = 0xB0, 0x0B, 0x01, 0xB0, 0x20});
    corner_of_12_bits('B', 'F', (const uint8_t[24]){0xA0, 0x0A, 0x01, 0xA0, 0x20, [12] = 0xB0, 0x0B, 0x01, 0xB0, 0x20});
}

/* At 8 bits an image has the same bytes under both rules, whatever stood there. */
static void byte_multiples(uint8_t mode) {
    uint8_t before[64];
    memset(before, 0xFF, 64);
    uint8_t *images[2] = {copy_of(before, 64), copy_of(before, 64)};
    for (int i = 0; i < 2; i++) {
        uint64_t *marks = LENT(uint64_t, 0);
        const struct gezdunar_grid grid = gezdunar_grid(3, 5, 2, 8, mode, "TF"[i], 2, 4);
        for (uint32_t block = 0; block < 4; block++) {
            const size_t rows = block < 2 ? 2 : 1, columns = block % 2 == 0 ? 4 : 1, n = 2 * rows * columns;
            struct gezdunar_answer a = gezdunar_encode_block(
                images[i], 64, marks, 1, grid, WIDTHS, block / 2, block % 2, 2, rows, columns, counting(n), n);
            check("write at 8 bits", a.number == 0);
        }
    }
    check("the same bytes under both rules", memcmp(images[0], images[1], 64) == 0);
    check("bytes outside the picture are kept", memchr(images[1], 0xFF, 64) != NULL);
}

/* The marks of figure m's grid, and figure k's sample that does not fit. */
static void writes(uint8_t edges) {
    uint8_t *image = LENT(uint8_t, 0xFF, 0xFF, 0xFF, 0xFF), *small = LENT(uint8_t, 0xFF, 0xFF);
    uint64_t *marks = LENT(uint64_t, ~(uint64_t)0);
    const uint8_t *data = LENT(uint8_t, 5, 9), *wide = LENT(uint8_t, 0xF1, 0x23);
    const struct gezdunar_grid grid = gezdunar_grid(2, 3, 1, 4, 'B', edges, 2, 2);
    const struct gezdunar_grid one = gezdunar_grid(1, 1, 1, 12, 'P', edges, 1, 1);
    check("start", gezdunar_start(image, 4, marks, 1, grid, WIDTHS).number == 0);
    check("write", gezdunar_encode_block(image, 4, marks, 1, grid, WIDTHS, 0, 1, 1, 2, 1, data, 2).number == 0);
    struct gezdunar_answer a = gezdunar_finalize(image, 4, marks, 1, grid, WIDTHS);
    check("hole", a.number == 15 && a.first == 0 && a.second == 0);
    check("skip", gezdunar_skip_block(image, 4, marks, 1, grid, WIDTHS, 0, 0).number == 0);
    a = gezdunar_progress(marks, 1, grid, WIDTHS);
    check("progress", a.number == 0 && a.first == 2);
    check("finish", gezdunar_finalize(image, 4, marks, 1, grid, WIDTHS).number == 0);
    check("start", gezdunar_start(small, 2, marks, 1, one, WIDTHS).number == 0);
    a = gezdunar_encode_block(small, 2, marks, 1, one, WIDTHS, 0, 0, 1, 1, 1, wide, 2);
    check("figure k, sample F123", a.number == GEZDUNAR_SAMPLE_BITS && pair(small, 0, 0) && *marks == 0);
}

/* Figure m's blocks from tight to full: bytes 59 00 of block (0, 1) become 50 90. The image has a byte of surplus, and
   so has the scratch. */
static void relays(void) {
    const struct gezdunar_grid tight = gezdunar_grid(2, 3, 1, 4, 'B', 'T', 2, 2);
    const struct gezdunar_grid full = gezdunar_grid(2, 3, 1, 4, 'B', 'F', 2, 2);
    uint8_t *image = LENT(uint8_t, 0x12, 0x45, 0x59, 0xFF, 0xAA), *scratch = LENT(uint8_t, 0xAA, 0xAA, 0xAA);
    const uint64_t *marks = LENT(uint64_t, 2);
    struct gezdunar_relaid r = gezdunar_relay(image, 5, marks, 1, tight, WIDTHS, scratch, 1);
    check("a scratch too small", r.number == GEZDUNAR_OUTPUT_TOO_SHORT && same_grid(r.grid, tight) && image[3] == 0xFF);
    r = gezdunar_relay(image, 5, marks, 1, full, WIDTHS, scratch, 1);
    check("27 before 9", r.number == GEZDUNAR_ALREADY_FULL && same_grid(r.grid, full));
    r = gezdunar_relay(image, 5, marks, 0, full, WIDTHS, scratch, 1);
    check("12 before 27", r.number == GEZDUNAR_MARKS_TOO_SHORT && scratch[0] == 0xAA);
    r = gezdunar_relay(image, 5, marks, 1, tight, WIDTHS, scratch, 3);
    check("relay", r.number == 0 && same_grid(r.grid, full) && *marks == 2);
    check("figure m from tight to full", pair(image, 0x12, 0x45) && pair(image + 2, 0x50, 0x90) && image[4] == 0xAA);
    check("the scratch ends as zeros", pair(scratch, 0, 0) && scratch[2] == 0xAA);
    r = gezdunar_relay(image, 5, marks, 1, r.grid, WIDTHS, scratch, 3);
    check("the rule is full now", r.number == GEZDUNAR_ALREADY_FULL && same_grid(r.grid, full));
}

/* The number of a write of a row of samples into an image and marks that hold 0xAA. A refused one must keep both, an
   accepted one must be read back as it was. */
static uint32_t write_row(uint32_t nbpp, uint32_t n, const uint8_t *data, size_t length) {
    uint8_t before[64];
    memset(before, 0xAA, 64);
    const struct gezdunar_grid row = gezdunar_grid(1, n, 1, nbpp, 'B', 'F', 1, n);
    const size_t size = gezdunar_grid_sizes(row, WIDTHS).image_bytes;
    uint8_t *image = copy_of(before, size), *out = copy_of(before, length);
    uint64_t *marks = LENT(uint64_t, 0xAA);
    struct gezdunar_answer a = gezdunar_encode_block(image, size, marks, 1, row, WIDTHS, 0, 0, 1, 1, n, data, length);
    struct gezdunar_shape s = gezdunar_decode_block(image, size, row, WIDTHS, 0, 0, 0, true, NULL, 0, out, length);
    bool kept = memcmp(image, before, size) == 0 && *marks == 0xAA;
    bool stored = has_shape(s, 1, 1, n) && memcmp(out, data, length) == 0 && *marks == 0xAB;
    check("a row is stored or kept", a.number == 0 ? stored : kept);
    check("zeros beside the number of a write", a.first == 0 && a.second == 0);
    return a.number;
}

static void samples_that_do_not_fit(void) {
    const uint8_t *first = LENT(uint8_t, 0x10, 0, 0, 0, 0, 0), *last = LENT(uint8_t, 0, 0, 0, 0, 0x10, 0);
    const uint8_t *highest = LENT(uint8_t, 0, 0, 0x80, 0, 0, 0);
    const uint8_t *short_by_one = LENT(uint8_t, 0xF1, 0x23, 0x04, 0x56, 0xF7);
    const uint8_t *largest = LENT(uint8_t, 0x0F, 0xFF, 0, 0, 0x0F, 0xFF);
    const uint8_t *ones = LENT(uint8_t, 0xFF, 0xFF, 0xFF, 0xFF, 0xFF, 0xFF);
    check("the first sample has bit 12", write_row(12, 3, first, 6) == GEZDUNAR_SAMPLE_BITS);
    check("the last sample has bit 12", write_row(12, 3, last, 6) == GEZDUNAR_SAMPLE_BITS);
    check("a sample has bit 15", write_row(12, 3, highest, 6) == GEZDUNAR_SAMPLE_BITS);
    check("the largest samples of 12 bits", write_row(12, 3, largest, 6) == GEZDUNAR_ACCEPTED);
    check("the length before the bits", write_row(12, 3, short_by_one, 5) == GEZDUNAR_DATA_LENGTH);
    check("all bits of 8", write_row(8, 6, ones, 6) == GEZDUNAR_ACCEPTED);
    check("all bits of 16", write_row(16, 3, ones, 6) == GEZDUNAR_ACCEPTED);
    check("all bits of 24", write_row(24, 2, ones, 6) == GEZDUNAR_ACCEPTED);
    check("all bits of 48", write_row(48, 1, ones, 6) == GEZDUNAR_ACCEPTED);
}

/* Each bit of each of three samples alone, at every width that is no multiple of 8. */
static void every_bit_alone(void) {
    for (uint32_t nbpp = 1; nbpp < 32; nbpp++) {
        if (nbpp % 8 == 0 || (nbpp > 16 && nbpp < 24)) continue;
        const uint32_t bits = (nbpp + 7) / 8 * 8;
        for (uint32_t bit = 0; bit < 3 * bits; bit++) {
            uint8_t *data = copy_of((const uint8_t[12]){0}, 3 * bits / 8);
            data[bit / 8] = (uint8_t)(0x80 >> bit % 8);
            bool fits = bits - 1 - bit % bits < nbpp;
            check("a bit alone", write_row(nbpp, 3, data, 3 * bits / 8) == (fits ? 0 : GEZDUNAR_SAMPLE_BITS));
        }
    }
}

/* Two blocks in B, the second empty. */
static void masks(void) {
    static const uint8_t paper[18] = {0, 0, 0, 0x12, 0, 4, 0, 0, 0, 0, 0, 0, 0, 0, 0xFF, 0xFF, 0xFF, 0xFF};
    const uint64_t *marks = LENT(uint64_t, 1);
    uint32_t *offsets = LENT(uint32_t, 7, 7), *none = copy_of(NULL, 0);
    uint8_t *table = copy_of((const uint8_t[18]){0}, 18);
    const struct gezdunar_grid grid = gezdunar_grid(1, 2, 1, 8, 'B', 'T', 1, 1);
    struct gezdunar_parsed m = gezdunar_mask_from_marks(marks, 1, grid, WIDTHS, offsets, 2);
    check("mask from marks", m.number == 0 && m.used == 2 && m.mask.block_mask_record_length == 4 && offsets[0] == 0
        && offsets[1] == 0xFFFFFFFF);
    struct gezdunar_written w = gezdunar_mask_write(grid, WIDTHS, 4, 0, 0, 0, offsets, 2, none, 0, table, 18);
    check("figure n", w.number == 0 && w.bytes == 18 && memcmp(table, paper, 18) == 0);
    m = gezdunar_mask_parse(table, 18, grid, WIDTHS);
    check("parse", m.number == 0 && m.used == 18 && m.mask.image_data_offset == 18);
    check("short table", gezdunar_mask_parse(copy_of(table, 17), 17, grid, WIDTHS).number == 19);
    struct gezdunar_present h = gezdunar_has_block(table, 18, grid, WIDTHS, 0, 0, 0);
    check("present", h.number == 0 && h.present);
    h = gezdunar_has_block(table, 18, grid, WIDTHS, 0, 1, 0);
    check("empty", h.number == 0 && !h.present);
    struct gezdunar_block_offset o = gezdunar_get_block_offset(table, 18, grid, WIDTHS, 0, 0, 0);
    check("offset", o.number == 0 && o.given && o.offset == 0);
    o = gezdunar_get_block_offset(table, 18, grid, WIDTHS, 0, 1, 0);
    check("no offset", o.number == 0 && !o.given);
}

static void reorderings(void) {
    const uint8_t *pixels = LENT(uint8_t, 1, 2, 3, 4);
    const uint32_t *second = LENT(uint32_t, 1);
    uint8_t *bands = LENT(uint8_t, 0, 0, 0, 0), *back = LENT(uint8_t, 0, 0, 0, 0), *one = LENT(uint8_t, 0, 0);
    struct gezdunar_reordered r = gezdunar_to_band_sequential(pixels, 4, 'P', 1, 2, 2, 1, bands, 4);
    check("to", r.number == 0 && r.bands == 2 && r.bytes == 4 && pair(bands, 1, 3) && pair(bands + 2, 2, 4));
    r = gezdunar_from_band_sequential(bands, 4, 'P', 1, 2, 2, 1, back, 4);
    check("from", r.number == 0 && memcmp(back, pixels, 4) == 0);
    r = gezdunar_fused_bip_to_bsq(pixels, 4, 1, 2, 2, 1, false, second, 1, one, 2);
    check("listed", r.number == 0 && r.bands == 1 && r.bytes == 2 && one[0] == 2 && one[1] == 4);
}

/* Every slice of every call null, with length 0. */
static void null_with_length_0(void) {
    const struct gezdunar_grid g = small('P');
    uint8_t *image = (uint8_t *)counting(64);
    uint64_t *marks = LENT(uint64_t, 0);
    struct gezdunar_shape s = gezdunar_decode_block(NULL, 0, g, WIDTHS, 1, 1, 0, true, NULL, 0, NULL, 0);
    check("null: decode, image", refused(s, 7));
    s = gezdunar_decode_block(image, 64, g, WIDTHS, 1, 1, 0, false, NULL, 0, NULL, 0);
    check("null: decode, list", has_shape(s, 0, 1, 1));
    s = gezdunar_decode_block(image, 64, g, WIDTHS, 1, 1, 0, true, NULL, 0, NULL, 0);
    check("null: decode, out", refused(s, 9));
    check("null: whole block", gezdunar_whole_block(NULL, 0, g, WIDTHS, 1, 1).number == 7);
    s = gezdunar_read_window(NULL, 0, g, WIDTHS, 1, 1, 1, 1, true, NULL, 0, NULL, 0);
    check("null: window, image", refused(s, 7));
    s = gezdunar_read_window(image, 64, g, WIDTHS, 1, 1, 1, 1, false, NULL, 0, NULL, 0);
    check("null: window, list", has_shape(s, 0, 1, 1));
    s = gezdunar_read_window(image, 64, g, WIDTHS, 1, 1, 1, 1, true, NULL, 0, NULL, 0);
    check("null: window, out", refused(s, 9));
    check("null: start", gezdunar_start(NULL, 0, NULL, 0, g, WIDTHS).number == 11);
    check("null: start, marks", gezdunar_start(image, 64, NULL, 0, g, WIDTHS).number == 12);
    check("null: encode", gezdunar_encode_block(NULL, 0, NULL, 0, g, WIDTHS, 1, 1, 2, 1, 1, NULL, 0).number == 11);
    struct gezdunar_answer a = gezdunar_encode_block(image, 64, NULL, 0, g, WIDTHS, 1, 1, 2, 1, 1, NULL, 0);
    check("null: encode, marks", a.number == 12);
    a = gezdunar_encode_block(image, 64, marks, 1, g, WIDTHS, 1, 1, 2, 1, 1, NULL, 0);
    check("null: encode, data", a.number == 14);
    check("null: skip", gezdunar_skip_block(NULL, 0, NULL, 0, g, WIDTHS, 1, 1).number == 11);
    check("null: skip, marks", gezdunar_skip_block(image, 64, NULL, 0, g, WIDTHS, 1, 1).number == 12);
    check("null: progress", gezdunar_progress(NULL, 0, g, WIDTHS).number == 12);
    check("null: finalize", gezdunar_finalize(NULL, 0, NULL, 0, g, WIDTHS).number == 11);
    check("null: finalize, marks", gezdunar_finalize(image, 64, NULL, 0, g, WIDTHS).number == 12);
    struct gezdunar_grid tight = g;
    tight.edges = 'T';
    check("null: relay", gezdunar_relay(NULL, 0, NULL, 0, tight, WIDTHS, NULL, 0).number == 11);
    check("null: relay, marks", gezdunar_relay(image, 64, NULL, 0, tight, WIDTHS, NULL, 0).number == 12);
    check("null: relay, scratch", gezdunar_relay(image, 64, marks, 1, tight, WIDTHS, NULL, 0).number == 9);
}

static void null_tables_with_length_0(void) {
    const struct gezdunar_grid g = small('P');
    const uint64_t *marks = LENT(uint64_t, 0);
    uint8_t *out = copy_of((const uint8_t[10]){0}, 10);
    check("null: parse", gezdunar_mask_parse(NULL, 0, g, WIDTHS).number == 16);
    check("null: has block", gezdunar_has_block(NULL, 0, g, WIDTHS, 0, 0, 0).number == 16);
    check("null: block offset", gezdunar_get_block_offset(NULL, 0, g, WIDTHS, 0, 0, 0).number == 16);
    check("null: mask write, out", gezdunar_mask_write(g, WIDTHS, 0, 0, 0, 0, NULL, 0, NULL, 0, NULL, 0).number == 9);
    struct gezdunar_written w = gezdunar_mask_write(g, WIDTHS, 0, 0, 0, 0, NULL, 0, NULL, 0, out, 10);
    check("null: mask write, offsets", w.number == 0 && w.bytes == 10 && out[3] == 10);
    check("null: mask from marks", gezdunar_mask_from_marks(NULL, 0, g, WIDTHS, NULL, 0).number == 12);
    check("null: mask from marks, out", gezdunar_mask_from_marks(marks, 1, g, WIDTHS, NULL, 0).number == 9);
    struct gezdunar_reordered r = gezdunar_to_band_sequential(NULL, 0, 'P', 0, 2, 2, 1, NULL, 0);
    check("null: to", r.number == 0 && r.bytes == 0);
    r = gezdunar_from_band_sequential(NULL, 0, 'R', 2, 0, 2, 1, NULL, 0);
    check("null: from", r.number == 0 && r.bytes == 0);
    r = gezdunar_fused_bip_to_bsq(NULL, 0, 2, 2, 0, 1, true, NULL, 0, NULL, 0);
    check("null: fused", r.number == 0 && r.bytes == 0);
    r = gezdunar_fused_bip_to_bsq(counting(4), 4, 2, 1, 2, 1, false, NULL, 0, NULL, 0);
    check("null: fused, list", r.number == 0 && r.bands == 0 && r.bytes == 0);
}

/* The 68 bytes of a width table: the constant one, with another byte at a place. */
static uint8_t *stored(size_t place, uint8_t byte) {
    uint8_t bytes[68] = {0, 66, 1};
    memcpy(bytes + 3, gezdunar_standard_widths, GEZDUNAR_WIDTHS);
    bytes[place] = byte;
    return copy_of(bytes, 68);
}

static bool is_zero(const uint8_t *bytes, size_t n) {
    for (size_t i = 0; i < n; i++) {
        if (bytes[i] != 0) return false;
    }
    return true;
}

static void widths_loaded(void) {
    struct gezdunar_widths w = gezdunar_load_widths(stored(2, 1), 68);
    check("load", w.number == 0 && memcmp(w.entries, gezdunar_standard_widths, GEZDUNAR_WIDTHS) == 0);
    for (size_t place = 0; place < 68; place++) {
        uint8_t right = stored(2, 1)[place];
        w = gezdunar_load_widths(stored(place, right + 1), 68);
        check("another byte", w.number == GEZDUNAR_WIDTH_TABLE && is_zero(w.entries, GEZDUNAR_WIDTHS));
        w = gezdunar_load_widths(stored(place, 0), 68);
        check("a zero", w.number == (place < 3 && right != 0 ? 33 : 0));
    }
    const uint8_t *long_one = copy_of(memcpy((uint8_t[69]){0}, stored(2, 1), 68), 69);
    check("67 bytes", gezdunar_load_widths(copy_of(long_one, 67), 67).number == 33);
    check("69 bytes", gezdunar_load_widths(long_one, 69).number == 33);
    check("null: load", gezdunar_load_widths(NULL, 0).number == 33);
}

/* The number of a grid of so many bits, with so many entries of a table. */
static uint32_t with_widths(uint32_t nbpp, const uint8_t *widths, size_t length) {
    return gezdunar_grid_check(gezdunar_grid(3, 5, 2, nbpp, 'P', 'F', 2, 4), widths, length);
}

static void widths_barred(void) {
    struct gezdunar_widths no_12 = gezdunar_load_widths(stored(3 + 12, 0), 68);
    for (uint32_t nbpp = 0; nbpp < 70; nbpp++) {
        uint32_t number = with_widths(nbpp, WIDTHS);
        check("12 barred", with_widths(nbpp, no_12.entries, GEZDUNAR_WIDTHS) == (nbpp == 12 ? 2 : number));
        check("no table", with_widths(nbpp, NULL, 0) == GEZDUNAR_WIDTH);
        /* A shorter table bars what it has no entry for, and a longer one has 65. */
        const uint8_t *part = copy_of(gezdunar_standard_widths, 20);
        check("20 entries", with_widths(nbpp, part, 20) == (nbpp < 20 ? number : 2));
        uint8_t more[72];
        memset(more, 9, 72);
        memcpy(more, gezdunar_standard_widths, GEZDUNAR_WIDTHS);
        check("72 entries", with_widths(nbpp, copy_of(more, 72), 72) == number);
    }
    struct gezdunar_sizes sizes = gezdunar_grid_sizes(small('P'), copy_of(no_12.entries, 8), 8);
    check("sizes", sizes.number == 2 && sizes.image_bytes == 0);
    uint8_t *image = copy_of(counting(64), 64);
    uint64_t *marks = LENT(uint64_t, 5);
    uint8_t *out = LENT(uint8_t, 1, 2);
    struct gezdunar_shape s = gezdunar_read_window(image, 64, small('P'), NULL, 0, 2, 4, 1, 1, true, NULL, 0, out, 2);
    check("window", refused(s, 2));
    check("the output is kept", pair(out, 1, 2));
    check("start", gezdunar_start(image, 64, marks, 1, small('P'), NULL, 0).number == GEZDUNAR_WIDTH);
    check("image and marks are kept", memcmp(image, counting(64), 64) == 0 && marks[0] == 5);
    check("mode first", gezdunar_start(image, 64, marks, 1, small('Q'), NULL, 0).number == GEZDUNAR_NO_MODE);
}

int main(void) {
    version_and_texts();
    grids();
    widths_loaded();
    widths_barred();
    grid_in_memory();
    every_byte_as_a_rule();
    no_rule();
    subheaders_read();
    rules_read();
    pvtypes_read();
    subheaders_written();
    rules_written();
    figures_a_to_d();
    figures_e_to_j();
    reads();
    for (int i = 0; i < 2; i++) {
        figures_k_and_l((uint8_t)"TF"[i]);
        writes((uint8_t)"TF"[i]);
    }
    figure_m('T', 0x59, 0x00);
    figure_m('F', 0x50, 0x90);
    relays();
    corners_of_12_bits();
    for (int i = 0; i < 4; i++) byte_multiples((uint8_t)"BPRS"[i]);
    samples_that_do_not_fit();
    every_bit_alone();
    masks();
    reorderings();
    null_with_length_0();
    null_tables_with_length_0();
    if (failures == 0) printf("c: all passed\n");
    return failures != 0;
}
