/* Gezdunar: uncompressed NITF 2.1 image blocks. Link with libgezdunar.a, which `tools/build_archive` builds.

   A slice crosses as a pointer and a length in elements. Beside length 0 the pointer may be null: nothing is read or
   written through it. Buffers that are written must not overlap others of the same call.
   Every answer has a number: 0 where the call was accepted, else what was wrong first, in the order in which the call
   asks (enum gezdunar_refusal). A refused call writes nothing. */
#ifndef GEZDUNAR_H
#define GEZDUNAR_H

#include <stdbool.h>
#include <stddef.h>
#include <stdint.h>

#ifdef __cplusplus
extern "C" {
#endif

/* The version of this header. It belongs to an archive whose gezdunar_version() answers GEZDUNAR_VERSION. */
#define GEZDUNAR_VERSION_MAJOR 0
#define GEZDUNAR_VERSION_MINOR 7
#define GEZDUNAR_VERSION_PATCH 0
#define GEZDUNAR_VERSION (GEZDUNAR_VERSION_MAJOR * 1000000 + GEZDUNAR_VERSION_MINOR * 1000 + GEZDUNAR_VERSION_PATCH)

/* The numbers that answers have. gezdunar_refusal_text gives each in words. */
enum gezdunar_refusal {
    GEZDUNAR_ACCEPTED = 0,
    GEZDUNAR_LIMITS = 1,
    GEZDUNAR_WIDTH = 2,
    GEZDUNAR_BLOCK_COUNTS = 3,
    GEZDUNAR_TOO_LARGE = 4,
    GEZDUNAR_RESOLUTION_LEVEL = 5,
    GEZDUNAR_BLOCK_OUTSIDE_GRID = 6,
    GEZDUNAR_IMAGE_ENDS = 7,
    GEZDUNAR_NO_SUCH_BAND = 8,
    GEZDUNAR_OUTPUT_TOO_SHORT = 9,
    GEZDUNAR_WINDOW_OUTSIDE_PICTURE = 10,
    GEZDUNAR_IMAGE_TOO_SHORT = 11,
    GEZDUNAR_MARKS_TOO_SHORT = 12,
    GEZDUNAR_OTHER_SHAPE = 13,
    GEZDUNAR_DATA_LENGTH = 14,
    GEZDUNAR_UNMARKED_BLOCK = 15,
    GEZDUNAR_TABLE_TOO_SHORT = 16,
    GEZDUNAR_RECORD_LENGTH = 17,
    GEZDUNAR_PAD_CODE_LENGTH = 18,
    GEZDUNAR_TABLE_ENDS = 19,
    GEZDUNAR_PAD_CODE = 20,
    GEZDUNAR_TABLE_TOO_LARGE = 21,
    GEZDUNAR_OFFSET_COUNT = 22,
    GEZDUNAR_SUBHEADER_PART = 23,
    GEZDUNAR_NAMED_VALUE = 24,
    /* A sample that is to be written has a bit above NBPP. No call answers 25. */
    GEZDUNAR_SAMPLE_BITS = 26,
    /* The edge rule is full already. */
    GEZDUNAR_ALREADY_FULL = 27,
    /* A width table to load does not have 68 bytes, or its length, its version or an entry is wrong. */
    GEZDUNAR_WIDTH_TABLE = 33,
    /* A byte that is no mode, or one that is no edge rule; asked before all other questions. */
    GEZDUNAR_NO_MODE = 99
};

/* A number in words. */
static inline const char *gezdunar_refusal_text(uint32_t number) {
    switch (number) {
    case GEZDUNAR_ACCEPTED: return "accepted";
    case GEZDUNAR_LIMITS: return "a picture, block or band count is outside its limits";
    case GEZDUNAR_WIDTH: return "the width or sample size is not one that is taken";
    case GEZDUNAR_BLOCK_COUNTS: return "NBPR or NBPC does not follow from the rest, or is more than 9,999";
    case GEZDUNAR_TOO_LARGE: return "the image or product is too large";
    case GEZDUNAR_RESOLUTION_LEVEL: return "the resolution level is not 0";
    case GEZDUNAR_BLOCK_OUTSIDE_GRID: return "the block is outside the grid";
    case GEZDUNAR_IMAGE_ENDS: return "the image ends before the block does";
    case GEZDUNAR_NO_SUCH_BAND: return "a band is asked for that the picture does not have";
    case GEZDUNAR_OUTPUT_TOO_SHORT: return "the output is too short for the answer";
    case GEZDUNAR_WINDOW_OUTSIDE_PICTURE: return "the window is empty or outside the picture";
    case GEZDUNAR_IMAGE_TOO_SHORT: return "the image buffer is too short for the image";
    case GEZDUNAR_MARKS_TOO_SHORT: return "there are too few words for the marks";
    case GEZDUNAR_OTHER_SHAPE: return "the shape is not the block's";
    case GEZDUNAR_DATA_LENGTH: return "the data has another length than its counts give";
    case GEZDUNAR_UNMARKED_BLOCK: return "a block was neither written nor skipped";
    case GEZDUNAR_TABLE_TOO_SHORT: return "the mask table has less than ten bytes";
    case GEZDUNAR_RECORD_LENGTH: return "a record length is neither 0 nor 4";
    case GEZDUNAR_PAD_CODE_LENGTH: return "the pad code has more than 32 bits";
    case GEZDUNAR_TABLE_ENDS: return "the mask table ends before its records do";
    case GEZDUNAR_PAD_CODE: return "the pad code does not fit its length";
    case GEZDUNAR_TABLE_TOO_LARGE: return "the mask table would be too large";
    case GEZDUNAR_OFFSET_COUNT: return "an offset list has another length than its records";
    case GEZDUNAR_SUBHEADER_PART:
        return "a part of the subheader has another length, or a number that is not all digits";
    case GEZDUNAR_NAMED_VALUE: return "PVTYPE, PJUST, IC or IMODE has no named value, or ABPP is above 99";
    case GEZDUNAR_SAMPLE_BITS: return "a sample has a bit above NBPP";
    case GEZDUNAR_ALREADY_FULL: return "the edge rule is full already";
    case GEZDUNAR_WIDTH_TABLE:
        return "a width table has another length than 68 bytes, or a wrong length, version or entry";
    case GEZDUNAR_NO_MODE: return "the mode is none of B, P, R and S, or the edge rule none of T and F";
    default: return "refused with a number that has no name here";
    }
}

/* A picture in blocks. The fields have the names of MIL-STD-2500C, but for bands, which is its NBANDS or XBANDS. A
   block has nppbv rows and nppbh columns; nbpr blocks stand across, nbpc down. imode is the letter's byte: 'B', 'P',
   'R' or 'S'.
   edges is the edge rule, a letter's byte too: where nbpp is no multiple of 8, how the samples of a block lie that is
   partly outside the picture. 'T', tight: its samples inside the picture, without gaps. 'F', full: those of a whole
   block, with zeros outside the picture. Multiples of 8 lie the same under both. The standard's blocks are full, and
   with them those of other writers and viewers; images of version 0.4 and earlier are tight. There is no default, and
   0 is no rule: a wrong guess gives believable samples. */
struct gezdunar_grid {
    uint32_t nrows;
    uint32_t ncols;
    uint32_t bands;
    uint32_t nbpp;
    uint8_t imode;
    uint8_t edges;
    uint32_t nppbh;
    uint32_t nppbv;
    uint32_t nbpr;
    uint32_t nbpc;
};

/* The width table: bytes of a sample for nbpp 0 to 64, 0 where the width is refused. Every call with a grid is handed a
   table, as a pointer to its entries and their count, and question 2 is asked of it: nbpp is taken where the entry is
   this table's and not 0. A site may bar widths that its displays can't show: it loads a table in which they are 0, and
   hands that in. A wrong entry in a table that was not loaded bars its own width and no other. An entry that is not
   there is 0: beside count 0 every grid is refused with 2. More than 65 entries are not looked at. */
#define GEZDUNAR_WIDTHS 65

static const uint8_t gezdunar_standard_widths[GEZDUNAR_WIDTHS] = {
    0, 1, 1, 1, 1, 1, 1, 1, 1, 2, 2, 2, 2, 2, 2, 2, 2,
    0, 0, 0, 0, 0, 0, 0, 3, 4, 4, 4, 4, 4, 4, 4, 4,
    0, 0, 0, 0, 0, 0, 0, 5, 0, 0, 0, 0, 0, 0, 0, 6,
    0, 0, 0, 0, 0, 0, 0, 7, 0, 0, 0, 0, 0, 0, 0, 8
};

/* Answer of a loading: the table's entries. */
struct gezdunar_widths { uint32_t number; uint8_t entries[GEZDUNAR_WIDTHS]; };

/* The fields of three parts of an image subheader: NROWS to PJUST (38 bytes), IC (2), IMODE to NBPP (19). pvtype is
   "INT", "SI ", "R  ", "C  " or "B  ", pjust 'R' or 'L', ic "NC" or "NM"; irep and icat are carried unread. No array
   ends with a zero byte. The grid has nppbh and nppbv as they are meant, not as a zero field; its bands and its edges
   are not in the parts. */
struct gezdunar_subheader {
    uint8_t pvtype[3];
    uint8_t irep[8];
    uint8_t icat[8];
    uint32_t abpp;
    uint8_t pjust;
    uint8_t ic[2];
    struct gezdunar_grid grid;
};

struct gezdunar_read_subheader { uint32_t number; struct gezdunar_subheader subheader; };

/* Sizes of a grid: bytes of a sample in lent data, of a band of a block, of a block (in S not in one part), of the
   image; how many blocks the picture has, and how many words their marks take. */
struct gezdunar_sizes {
    uint32_t number;
    size_t sample_bytes;
    size_t band_bytes;
    size_t block_bytes;
    size_t image_bytes;
    size_t blocks;
    size_t mark_words;
};

/* Shape of a read. */
struct gezdunar_shape { uint32_t number; size_t bands; size_t rows; size_t columns; };

/* Part of the image, in bytes. */
struct gezdunar_place { uint32_t number; size_t start; size_t length; };

/* Answer of a call on a frame; first and second are 0 unless the call says otherwise. */
struct gezdunar_answer { uint32_t number; size_t first; size_t second; };

/* Answer of a re-lay: the grid that is in force after it. Beside a refusal it is the grid that was handed in. */
struct gezdunar_relaid { uint32_t number; struct gezdunar_grid grid; };

/* Header of an image data mask table. The standard's names: IMDATOFF, BMRLNTH, TMRLNTH, TPXCDLNTH (bits), TPXCD. */
struct gezdunar_mask {
    uint32_t image_data_offset;
    uint16_t block_mask_record_length;
    uint16_t pad_pixel_mask_record_length;
    uint16_t pad_pixel_code_length;
    uint32_t pad_pixel_code;
};

struct gezdunar_parsed { uint32_t number; struct gezdunar_mask mask; size_t used; };
struct gezdunar_present { uint32_t number; bool present; };
struct gezdunar_block_offset { uint32_t number; bool given; uint32_t offset; };
struct gezdunar_written { uint32_t number; size_t bytes; };
struct gezdunar_reordered { uint32_t number; size_t bands; size_t bytes; };

/* The version of the archive: major * 1,000,000 + minor * 1,000 + patch. */
uint32_t gezdunar_version(void);

/* The grid of a picture in blocks: nbpr and nbpc by rounding up; a block side of 0 gives 0 blocks. Nothing is refused
   here. Rows stand before columns, of the picture and of the block. (C++: write struct gezdunar_grid for the type.) */
struct gezdunar_grid gezdunar_grid(
    uint32_t nrows, uint32_t ncols, uint32_t bands, uint32_t nbpp, uint8_t imode, uint8_t edges, uint32_t nppbv,
    uint32_t nppbh);

/* Loads a width table from its 68 bytes: the length 66 in two bytes, high byte first, version 1, and the bytes of a
   sample for nbpp 0 to 64. Each entry is 0 or that of gezdunar_standard_widths. Beside a refusal all entries are 0.
   Lent: bytes. Numbers: 0, 33. */
struct gezdunar_widths gezdunar_load_widths(const uint8_t *bytes, size_t bytes_length);

/* Questions 1 to 4 of a grid.
   Lent: widths. Numbers: 0 to 4, 99. */
uint32_t gezdunar_grid_check(struct gezdunar_grid grid, const uint8_t *widths, size_t widths_length);

/* The sizes of an accepted grid; zeros beside a refusal.
   Lent: widths. Numbers: 0 to 4, 99. */
struct gezdunar_sizes gezdunar_grid_sizes(struct gezdunar_grid grid, const uint8_t *widths, size_t widths_length);

/* Reads three parts of an image subheader, for a picture of so many bands under an edge rule; the parts hold neither. A
   zero NPPBH with NBPR 1 is read as NCOLS, a zero NPPBV with NBPC 1 as NROWS. Beside a refusal all of subheader is
   zero. 99 is for edges alone; an IMODE that is no mode is 24.
   Lent: widths; the parts, of exactly 38, 2 and 19 bytes. Numbers: 0 to 4, 23, 24, 99. */
struct gezdunar_read_subheader gezdunar_subheader_read(
    const uint8_t *first, size_t first_length, const uint8_t *second, size_t second_length, const uint8_t *third,
    size_t third_length, uint32_t bands, uint8_t edges, const uint8_t *widths, size_t widths_length);

/* Writes the three parts: numbers in digits with leading zeros, NPPBH and NPPBV as zeros where they are above 8,192.
   The edge rule is asked for and not written. 99 is for edges alone; an imode that is no mode is 24.
   Lent: widths. Written: the front of first, second and third, 38, 2 and 19 bytes. Numbers: 0 to 4, 9, 24, 99. */
uint32_t gezdunar_subheader_write(
    struct gezdunar_subheader subheader, const uint8_t *widths, size_t widths_length, uint8_t *first,
    size_t first_length, uint8_t *second, size_t second_length, uint8_t *third, size_t third_length);

/* Reads a block: the bands asked for, in the order of the list, band by band, row by row, each sample in its
   big-endian bytes. With all the list is not looked at; an empty list gives 0 bands and 0 bytes.
   Lent: image, widths, list. Written: the front of out, bands x rows x columns x bytes of a sample; the rest is kept.
   resolution_level must be 0. Numbers: 0 to 9, 99. */
struct gezdunar_shape gezdunar_decode_block(
    const uint8_t *image, size_t image_length, struct gezdunar_grid grid, const uint8_t *widths, size_t widths_length,
    uint32_t block_row, uint32_t block_col, uint32_t resolution_level, bool all, const uint32_t *list,
    size_t list_length, uint8_t *out, size_t out_length);

/* Where the bytes of a whole nominal block lie in the image (B, P, R); nothing, at 0, beside a refusal and in S.
   Lent: image, widths. Written: nothing. Numbers: 0 to 4, 6, 7, 99. */
struct gezdunar_place gezdunar_whole_block(
    const uint8_t *image, size_t image_length, struct gezdunar_grid grid, const uint8_t *widths, size_t widths_length,
    uint32_t block_row, uint32_t block_col);

/* Reads a rectangle of the picture, across blocks, as gezdunar_decode_block reads a block.
   Lent: image, widths, list. Written: the front of out, bands x rows x columns x bytes of a sample; the rest is kept.
   Numbers: 0 to 4, 7 to 10, 99. */
struct gezdunar_shape gezdunar_read_window(
    const uint8_t *image, size_t image_length, struct gezdunar_grid grid, const uint8_t *widths, size_t widths_length,
    uint32_t row, uint32_t column, uint32_t rows, uint32_t columns, bool all, const uint32_t *list, size_t list_length,
    uint8_t *out, size_t out_length);

/* Starts a frame: clears the image and the words that hold the grid's marks.
   Lent: widths. Written: image, marks; the surplus of longer buffers is kept. Numbers: 0 to 4, 11, 12, 99. */
struct gezdunar_answer gezdunar_start(
    uint8_t *image, size_t image_length, uint64_t *marks, size_t marks_length, struct gezdunar_grid grid,
    const uint8_t *widths, size_t widths_length);

/* Stores the samples of a block, which stand in data band by band, row by row, and marks the block. Each sample is at
   most 2^NBPP - 1; one with a bit above NBPP is refused with 26, and no sample of the block is stored. A read or a
   window then gives what was written, bit for bit. A block may be written again.
   Lent: data, widths. Written: in the image the samples' bytes or, where NBPP is no multiple of 8, all bytes of the
   block's bands, zeros beside the samples; in marks the block's bit. Numbers: 0 to 4, 6, 11 to 14, 26, 99. */
struct gezdunar_answer gezdunar_encode_block(
    uint8_t *image, size_t image_length, uint64_t *marks, size_t marks_length, struct gezdunar_grid grid,
    const uint8_t *widths, size_t widths_length, uint32_t block_row, uint32_t block_col, size_t shape_bands,
    size_t shape_rows, size_t shape_columns, const uint8_t *data, size_t data_length);

/* Marks a block and keeps its bytes.
   Lent: image, widths. Written: in marks the block's bit. Numbers: 0 to 4, 6, 11, 12, 99. */
struct gezdunar_answer gezdunar_skip_block(
    const uint8_t *image, size_t image_length, uint64_t *marks, size_t marks_length, struct gezdunar_grid grid,
    const uint8_t *widths, size_t widths_length, uint32_t block_row, uint32_t block_col);

/* How many blocks are marked, in first.
   Lent: marks, widths. Written: nothing. Numbers: 0 to 4, 12, 99. */
struct gezdunar_answer gezdunar_progress(
    const uint64_t *marks, size_t marks_length, struct gezdunar_grid grid, const uint8_t *widths,
    size_t widths_length);

/* Is every block marked? Beside 15 the first that is not, by rows, then columns: its row in first, its column in
   second.
   Lent: image, marks, widths. Written: nothing. Numbers: 0 to 4, 11, 12, 15, 99. */
struct gezdunar_answer gezdunar_finalize(
    const uint8_t *image, size_t image_length, const uint64_t *marks, size_t marks_length, struct gezdunar_grid grid,
    const uint8_t *widths, size_t widths_length);

/* Lays every block of a frame anew, marked or not, from tight to full: a frame in progress goes on under the other edge
   rule. Samples keep their values, and so do the marks. Hand the grid of the answer to every later call; beside a
   refusal it is the one that was handed in, and nothing has changed.
   Lent: widths; marks, of which only the length is looked at. The scratch has bands x band_bytes bytes at least
   (block_bytes of gezdunar_sizes, in S too). Written: in the image, where NBPP is no multiple of 8, all bytes of every
   block, zeros beside the samples; in the scratch its first block_bytes bytes, which end as zeros.
   Numbers: 0 to 4, 9 (the scratch), 11, 12, 27 (the rule is full already), 99. */
struct gezdunar_relaid gezdunar_relay(
    uint8_t *image, size_t image_length, const uint64_t *marks, size_t marks_length, struct gezdunar_grid grid,
    const uint8_t *widths, size_t widths_length, uint8_t *scratch, size_t scratch_length);

/* The header of an image data mask table, and how many bytes the table takes.
   Lent: table, widths. Written: nothing. Numbers: 0 to 4, 16 to 19, 99. */
struct gezdunar_parsed gezdunar_mask_parse(
    const uint8_t *table, size_t table_length, struct gezdunar_grid grid, const uint8_t *widths, size_t widths_length);

/* Writes a table; IMDATOFF is its own size. One offset for each record, or none where the record length is 0.
   Lent: widths, the offsets. Written: the front of out. Numbers: 0 to 4, 9, 17, 18, 20 to 22, 99. */
struct gezdunar_written gezdunar_mask_write(
    struct gezdunar_grid grid, const uint8_t *widths, size_t widths_length, uint16_t block_record_length,
    uint16_t pad_record_length, uint16_t code_length, uint32_t code, const uint32_t *block_offsets,
    size_t block_offsets_length, const uint32_t *pad_offsets, size_t pad_offsets_length, uint8_t *out,
    size_t out_length);

/* Is a band of a block present? In S the record is that of block index + band, which is neither the standard's order
   nor that in which gezdunar_mask_from_marks fills.
   Lent: table, widths. Written: nothing. Numbers: 0 to 4, 6, 8, 16 to 19, 99. */
struct gezdunar_present gezdunar_has_block(
    const uint8_t *table, size_t table_length, struct gezdunar_grid grid, const uint8_t *widths, size_t widths_length,
    uint32_t block_row, uint32_t block_col, uint32_t band);

/* The offset in the record of a band of a block; none is given for an empty block, nor where there are no block
   records. In S the record is that of block index + band, as in gezdunar_has_block.
   Lent: table, widths. Written: nothing. Numbers: 0 to 4, 6, 8, 16 to 19, 99. */
struct gezdunar_block_offset gezdunar_get_block_offset(
    const uint8_t *table, size_t table_length, struct gezdunar_grid grid, const uint8_t *widths, size_t widths_length,
    uint32_t block_row, uint32_t block_col, uint32_t band);

/* The mask of a picture of which the marked blocks are provided: offset 0 for a marked block, 0xFFFFFFFF for another.
   The record lengths are 4 and 0, there is no code, IMDATOFF is 0. In S record block index x bands + band is the
   block's.
   Lent: marks, widths. Written: the front of out, as many words as used says. Numbers: 0 to 4, 9, 12, 99. */
struct gezdunar_parsed gezdunar_mask_from_marks(
    const uint64_t *marks, size_t marks_length, struct gezdunar_grid grid, const uint8_t *widths, size_t widths_length,
    uint32_t *out, size_t out_length);

/* Data in the order of a mode, to band order. A sample has bytes_per_pixel bytes, 1 to 8.
   Lent: data. Written: the front of out. Numbers: 0, 2, 4, 9, 14, 99. */
struct gezdunar_reordered gezdunar_to_band_sequential(
    const uint8_t *data, size_t data_length, uint8_t imode, uint32_t nrows, uint32_t ncols, uint32_t nbands,
    size_t bytes_per_pixel, uint8_t *out, size_t out_length);

/* Data in band order, to the order of a mode.
   Lent: data. Written: the front of out. Numbers: 0, 2, 4, 9, 14, 99. */
struct gezdunar_reordered gezdunar_from_band_sequential(
    const uint8_t *data, size_t data_length, uint8_t imode, uint32_t nrows, uint32_t ncols, uint32_t nbands,
    size_t bytes_per_pixel, uint8_t *out, size_t out_length);

/* Listed bands of data in the order of P, to band order.
   Lent: data, list. Written: the front of out. Numbers: 0, 2, 4, 8, 9, 14. */
struct gezdunar_reordered gezdunar_fused_bip_to_bsq(
    const uint8_t *data, size_t data_length, uint32_t nrows, uint32_t ncols, uint32_t nbands, size_t bytes_per_pixel,
    bool all, const uint32_t *list, size_t list_length, uint8_t *out, size_t out_length);

#ifdef __cplusplus
}
#endif

#endif
