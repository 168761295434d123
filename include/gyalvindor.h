/*
 * Gyalvindor: a proved reader of a font's 'name' and 'OS/2' tables, a proved comparison of two of them, proved writers of
 * both, and a proved chooser among the faces that a rack has loaded.
 *
 * Building. `./archive`, run in the repository's root, makes the archive. Then:
 *
 *     cc -Iinclude program.c target/staticlib/libgyalvindor.a
 *
 * Of the C library the archive needs memcpy and memset only. It holds no state, allocates nothing, keeps no pointer after a
 * call and never fails: every call answers, whatever the bytes and numbers are. Any number of threads may call it at once.
 *
 * Tables. A table is lent as a pointer to its first byte and its length in bytes. It is the bytes of one table, not of a
 * whole font; finding tables in a font file is left to the caller. Pointers must not be NULL, also where the length is 0.
 * Only gv_os2_write, gv_os2_rewrite, gv_name_write, gv_os2_compare and gv_name_compare write to memory.
 *
 * Answers. Every function gives a struct by value. Look at its refusal first: where refusal.number is not 0 there is no
 * answer, and the number says why. Only gv_rack_empty is never refused, and gives a rack without a refusal. Every function
 * checks the whole table before it answers, so gv_name_check and gv_os2_check need not be called first. Where gv_rack_load is
 * refused by 1, 54 or 53 it reads no table, and where it is refused by 2, 3 or 52 it does not read the 'name' table.
 *
 *     gv_number weight = gv_os2_field(table, length, 5, GV_WEIGHT);
 *     if (weight.refusal.number != 0)
 *         printf("refused %u\n", (unsigned)weight.refusal.number);
 *     else if (weight.kind == GV_VALUE)
 *         printf("weight %lld\n", (long long)weight.value);
 *
 * examples/face.c uses every function but gv_name_write, which examples/rename.c uses, and those of the chooser, which
 * examples/rack.c uses.
 */
#ifndef GYALVINDOR_H
#define GYALVINDOR_H

#include <stddef.h>
#include <stdint.h>

#ifdef __cplusplus
extern "C" {
#endif

/*
 * A refusal. Where the call is not refused, `number` is 0, and so are `carries` and `carried`. Where it is refused, all
 * members after the refusal are 0, in every answer, but for `side` of gv_compared, which says which table is refused,
 * `rack` of gv_loaded, whose slots hold what they held, and `looked` of gv_found, which counts also where the refusal is
 * 20. Where several refusals apply, the one that is given is the first in the order that stands at the function. Records,
 * tags and entries are counted from 0. For gv_name_write, 17, 18 and 19 are about an entry, and carry its number.
 *
 *   number  given exactly when                                              carried
 *     1     the level is above 5                                            -
 *     2     the OS/2 table is under 2 bytes, or shorter than the size       -
 *           for the smaller of its version and the level
 *     3     an OS/2 value rule is broken                                    the first rule broken, 1 to 7
 *     4     the version to write is outside 0 to 5                          -
 *     5     the room to write in is shorter than the version's size         -
 *     6     the field number is above 47                                    -
 *     7     the bit number is out of its range                              -
 *     8     a value to write does not fit its field                         the lowest such field
 *    10     the 'name' table is under 6 bytes                               -
 *    11     its format is neither 0 nor 1                                   -
 *    12     its name records pass the table's end                           -
 *    13     its tag count or tag records pass the end                       -
 *    14     its storage starts before the end of the records and tags,      -
 *           or past the table's end
 *    15     a record's string starts beyond the end of storage              the record
 *    16     a tag's string passes the end of storage                        the tag
 *    17     a record's key is below the one before it                       the later record
 *    18     a record's language number is not allowed                       the record
 *    19     a record's key is equal to the one before it                    the later record
 *    20     no record has the key (version, family: neither key)            -
 *    21     neither PostScript record is there                              -
 *    22     exactly one is there                                            -
 *    23     a PostScript string is ill-formed                               -
 *    24     the two PostScript strings differ                               -
 *    25     no version number in the string                                 -
 *    27     a record's string starts within storage or at its end, and      the record
 *           runs over the end
 *    29     two tables have more differences than there are rows for        -
 *    30     there are more than 5460 entries to write                       -
 *    31     an entry's text passes the pool's end                           the entry
 *    32     an entry's string would start beyond offset 65535               the entry
 *    33     the room is shorter than the 'name' table to write              -
 *    50     no loaded face has the family                                   -
 *    51     the font's family is empty or has over 64 bytes                 -
 *    52     the OS/2 table's version is above the level                     -
 *    53     the slot is taken                                               -
 *    54     the slot is above 31                                            -
 *    55     the slot is empty                                               -
 *
 * The rules for OS/2 values that refusal 3 carries:
 *
 *   1  weight 1 to 1000
 *   2  width 1 to 9
 *   3  fsType bits 0, 4 to 7, 10 to 15 clear
 *   4  in versions from 3 on, at most one of fsType bits 1, 2, 3 set
 *   5  fsSelection bits 10 to 15 clear, and bits 7 to 9 clear in versions below 4
 *   6  fsSelection bit 6 set means bits 0 and 5 clear
 *   7  in version 5, lower optical size below upper
 */
typedef struct gv_refusal {
    uint32_t number;  /* the number above, or 0 */
    uint32_t carries; /* 1 where it carries something, else 0 */
    size_t carried;   /* what it carries, or 0 */
} gv_refusal;

/* ---- 'name' tables */

/* A record's string: where it starts, counted from the table's first byte, how many bytes it has, and the record's number.
   All of it lies in the table: the bytes are table[start] to table[start + length - 1]. No zero byte is put after it. Records
   are counted from 0: the 12 bytes of this one start at byte 6 + 12 * record. Where the call is refused, record is 0 as the
   other members are, and stands for no record. */
typedef struct gv_text {
    gv_refusal refusal;
    size_t start;
    size_t length;
    size_t record;
} gv_text;

/* What a lookup answers: a record's string, as in gv_text, and the number of records that the search looked at, found or not,
   after the check of the table. `looked` is 0 for a table without records and where the table is refused (any number but 0
   and 20); else two to the power of it is at most twice the number of records, so it is never above 13. */
typedef struct gv_found {
    gv_refusal refusal;
    size_t start;
    size_t length;
    size_t record;
    size_t looked;
} gv_found;

/* A version number: the figures before and after the period, each below 65535, and the number of the record whose string it
   stands in, counted as in gv_text. */
typedef struct gv_version {
    gv_refusal refusal;
    uint32_t major;
    uint32_t minor;
    size_t record;
} gv_version;

/* Is the table accepted? Refusals 10, 11, 12, 13, 14; then for each record 15 or 27, 18, 17 or 19; then for each tag 16. */
gv_refusal gv_name_check(const uint8_t *table, size_t length);

/* The string of the record with these four numbers, and which record that is: no two records of an accepted table have the
   same four. Refusals as gv_name_check, then 20. Any numbers may be asked for: a part above 65535 is in no record.

   The search goes by fixed steps, so that `looked` is the same everywhere. Between a low number, included, at first 0, and a
   high one, excluded, at first the count of records, it looks at the record whose number is half their sum, rounded down. A
   record that has the four numbers ends the search. Where the record's four are smaller, low becomes the record's number plus
   one; where they are larger, high becomes the record's number. The search ends where low meets high. Four numbers are
   compared one after the other, as numbers, also above 65535. */
gv_found gv_name_lookup(const uint8_t *table, size_t length, uint32_t platform, uint32_t encoding, uint32_t language,
                        uint32_t name);

/* The PostScript name, as the string of the record (1, 0, 0, 6), and that record's number. It has one byte a character, and 1
   to 63 characters with codes 33 to 126 without [ ] ( ) { } < > / %. The record (3, 1, 0x409, 6) must hold the same name, two
   bytes a character. Refusals as gv_name_check, then 21, 22, 23, 24, in this order. */
gv_text gv_name_postscript(const uint8_t *table, size_t length);

/* The version number in the string of the record (3, 1, 0x409, 5), or of (1, 0, 0, 5) where there is no such record, and the
   number of the record that was used. A version number is the first place in the string with digits, a period, digits: both
   groups as long as they go and below 65535, the first not behind a digit. The string of (3, 1, 0x409, 5) has two bytes a
   character; an odd length gives 25. Refusals as gv_name_check, then 20, 25. */
gv_version gv_name_version(const uint8_t *table, size_t length);

/* ---- 'OS/2' tables

   There are versions 0 to 5 of this table. The level is the highest version that the caller wants to know, 0 to 5: what came
   in with a later version is answered by GV_NOT_KNOWN. Give 5 to see all there is. A table whose version is above the level
   is read as far as the level knows it, and the rules for values (refusal 3) are not applied to it. */

/* What an answer is. */
#define GV_REFUSED 0u   /* no answer: the call is refused */
#define GV_VALUE 1u     /* a value, in the members after `kind` */
#define GV_ABSENT 2u    /* it came in with a version above the table's */
#define GV_NOT_KNOWN 3u /* it came in after the level; rights, style position and optical sizes: also where the table's version
                           is above the level */

/* A field's number, or a bit (0 or 1). `value` is 0 unless kind is GV_VALUE. */
typedef struct gv_number {
    gv_refusal refusal;
    uint32_t kind;
    int64_t value;
} gv_number;

/* What fsType allows: editable if bit 3 is set, else preview if bit 2, else restricted if bit 1, else installable. More than
   one of these bits may be set only in versions 0 to 2. */
#define GV_INSTALLABLE 0u
#define GV_RESTRICTED 1u
#define GV_PREVIEW 2u
#define GV_EDITABLE 3u

/* `rights` is 0 unless kind is GV_VALUE. */
typedef struct gv_rights {
    gv_refusal refusal;
    uint32_t kind;
    uint32_t rights;
} gv_rights;

/* The weight (1 to 1000) and the width in percent (50 to 200). Both are 0 unless kind is GV_VALUE. */
typedef struct gv_style {
    gv_refusal refusal;
    uint32_t kind;
    float weight;
    float width;
} gv_style;

/* What the optical sizes are. */
#define GV_NO_SIZES 0u /* kind is not GV_VALUE */
#define GV_EVERY 1u    /* every size; `lower` and `upper` are 0 */
#define GV_UPWARDS 2u  /* from `lower` upwards; `upper` is 0 */
#define GV_BETWEEN 3u  /* between `lower` and `upper` */

/* The optical sizes in points. Where `kind` is not GV_VALUE, the members after it are 0. */
typedef struct gv_optical {
    gv_refusal refusal;
    uint32_t kind;
    uint32_t sizes;
    float lower;
    float upper;
} gv_optical;

/* The fields, for gv_os2_field and gv_os2_write. */
enum {
    GV_VERSION = 0,
    GV_AVERAGE_WIDTH = 1,
    GV_WEIGHT = 2,
    GV_WIDTH = 3,
    GV_FSTYPE = 4,
    GV_SUBSCRIPT_X_SIZE = 5,
    GV_SUBSCRIPT_Y_SIZE = 6,
    GV_SUBSCRIPT_X_OFFSET = 7,
    GV_SUBSCRIPT_Y_OFFSET = 8,
    GV_SUPERSCRIPT_X_SIZE = 9,
    GV_SUPERSCRIPT_Y_SIZE = 10,
    GV_SUPERSCRIPT_X_OFFSET = 11,
    GV_SUPERSCRIPT_Y_OFFSET = 12,
    GV_STRIKEOUT_SIZE = 13,
    GV_STRIKEOUT_POSITION = 14,
    GV_FAMILY_CLASS = 15,
    GV_PANOSE = 16,         /* ten fields, 16 to 25 */
    GV_UNICODE_RANGES = 26, /* four fields, 26 to 29 */
    GV_VENDOR = 30,
    GV_FSSELECTION = 31,
    GV_FIRST_CHAR = 32,
    GV_LAST_CHAR = 33,
    GV_TYPO_ASCENDER = 34,
    GV_TYPO_DESCENDER = 35,
    GV_TYPO_GAP = 36,
    GV_WIN_ASCENT = 37,
    GV_WIN_DESCENT = 38,
    GV_CODE_PAGES = 39, /* two fields, 39 and 40 */
    GV_X_HEIGHT = 41,
    GV_CAP_HEIGHT = 42,
    GV_DEFAULT_CHAR = 43,
    GV_BREAK_CHAR = 44,
    GV_MAX_CONTEXT = 45,
    GV_LOWER_SIZE = 46,
    GV_UPPER_SIZE = 47,
    GV_FIELDS = 48 /* how many there are */
};

/* Does the level accept the table? Refusals 1, 2, 3, in this order. */
gv_refusal gv_os2_check(const uint8_t *table, size_t length, uint32_t level);

/* Field 0 to 47. Refusals 1, 6, 2, 3, in this order. */
gv_number gv_os2_field(const uint8_t *table, size_t length, uint32_t level, uint32_t number);

/* Bit 0 to 9 of fsSelection. Refusals 1, 7, 2, 3, in this order. */
gv_number gv_os2_selection_bit(const uint8_t *table, size_t length, uint32_t level, uint32_t number);

/* Bit 0 to 127 of the Unicode ranges. Refusals 1, 7, 2, 3, in this order. */
gv_number gv_os2_unicode_bit(const uint8_t *table, size_t length, uint32_t level, uint32_t number);

/* Bit 0 to 63 of the code pages. Refusals 1, 7, 2, 3, in this order. */
gv_number gv_os2_code_page_bit(const uint8_t *table, size_t length, uint32_t level, uint32_t number);

/* What fsType allows. Refusals 1, 2, 3, in this order. */
gv_rights gv_os2_rights(const uint8_t *table, size_t length, uint32_t level);

/* The weight and the width in percent. Refusals 1, 2, 3, in this order. */
gv_style gv_os2_style_position(const uint8_t *table, size_t length, uint32_t level);

/* The optical sizes that the face is meant for. Refusals 1, 2, 3, in this order. */
gv_optical gv_os2_optical_sizes(const uint8_t *table, size_t length, uint32_t level);

/* ---- writing tables */

/* How many bytes were written: the table's length. Where the call is refused it is 0, and the room holds what it held. */
typedef struct gv_written {
    gv_refusal refusal;
    size_t size;
} gv_written;

/* Writes the table of 48 numbers, of which number 0 is the version, at the start of the room; no later byte is touched.
   Numbers for fields that the version lacks are not looked at. Numbers and room must not overlap. Refusals 4, 5, 8, 3, in this
   order. A version needs 78 bytes (0), 86 (1), 96 (2, 3, 4) or 100 (5). */
gv_written gv_os2_write(const int64_t numbers[GV_FIELDS], uint8_t *room, size_t length);

/* Reads a table at level 5 and writes its fields: the same bytes, up to its version's size. Table and room must not overlap.
   Refusals 2, 3, 4, 5, in this order. */
gv_written gv_os2_rewrite(const uint8_t *table, size_t table_length, uint8_t *room, size_t length);

/* One entry of a 'name' table to write: the four numbers of its record, and where its text lies in the pool. The text is the
   bytes pool[start] to pool[start + length - 1], as they are to stand in the table: what they mean follows from platform and
   encoding. Texts of different entries may overlap in the pool, or be the same. */
typedef struct gv_entry {
    uint16_t platform;
    uint16_t encoding;
    uint16_t language;
    uint16_t name;
    size_t start; /* any number */
    uint16_t length;
} gv_entry;

/* Writes a 'name' table of format 0 at the start of the room; no later byte is touched. It has a record for each entry, in the
   given order, and each entry's text copied behind the one before it; the texts stand directly behind the records. Reading it
   finds each entry's text in the record of the entry's number. There may be no entry: that is a table of 6 bytes. The room
   overlaps neither entries nor pool. Refusals 30; then for each entry 31, 18, 17 or 19, 32; then 33. A table needs 6 bytes, 12
   for each entry and the bytes of the texts. */
gv_written gv_name_write(const gv_entry *entries, size_t count, const uint8_t *pool, size_t pool_length, uint8_t *room,
                         size_t length);

/* ---- two tables compared

   What differs between two tables is listed in lent rows of five numbers, one row for each difference, from the first row on.
   The room is lent as a pointer to the first number of the first row and the count of numbers: five for each row. Where that
   count is no multiple of five, the numbers behind the last whole row are not touched. There may be no row at all. Rows behind
   those that are written, and all rows where the call is refused, hold what they held. The two tables may overlap, or be the
   same; the room overlaps neither.

       gv_os2_difference rows[GV_FIELDS];
       gv_compared done = gv_os2_compare(left, left_length, right, right_length, 5, (int64_t *)rows, 5 * GV_FIELDS);
       for (size_t i = 0; i < done.rows; i++)
           printf("field %d differs\n", (int)rows[i].field); */

/* Which of the two tables a refusal is about. */
#define GV_NO_SIDE 0u /* the call is not refused, or by 1 or 29 */
#define GV_LEFT 1u
#define GV_RIGHT 2u

/* How many rows were written. Where the call is refused it is 0. */
typedef struct gv_compared {
    gv_refusal refusal;
    uint32_t side; /* GV_NO_SIDE, GV_LEFT or GV_RIGHT */
    size_t rows;
} gv_compared;

/* A row for two OS/2 tables: a field, and what gv_os2_field answers for it on either side. A kind is GV_VALUE or GV_ABSENT; a
   field that came in after the level is GV_NOT_KNOWN on both sides, and so in no row. A value is 0 where its kind is GV_ABSENT. */
typedef struct gv_os2_difference {
    int64_t field; /* 0 to 47 */
    int64_t left_kind;
    int64_t left_value;
    int64_t right_kind;
    int64_t right_value;
} gv_os2_difference;

/* What a key of two 'name' tables is. A key in both with the same string bytes is in no row, wherever the strings lie. */
#define GV_ONLY_LEFT 1u
#define GV_ONLY_RIGHT 2u
#define GV_OTHER_BYTES 3u /* in both, with other string bytes */

/* A row for two 'name' tables: a record's four numbers, and what the key is. */
typedef struct gv_name_difference {
    uint16_t platform;
    uint16_t encoding;
    uint16_t language;
    uint16_t name;
    uint16_t which; /* GV_ONLY_LEFT, GV_ONLY_RIGHT or GV_OTHER_BYTES */
} gv_name_difference;

/* The fields in which two OS/2 tables differ at a level, in the order of their numbers: those with different answers. Refusals
   1, with no side; then 2, 3 of the left table; then 2, 3 of the right one; then 29, with no side. 48 rows are always enough. */
gv_compared gv_os2_compare(const uint8_t *left, size_t left_length, const uint8_t *right, size_t right_length, uint32_t level,
                           int64_t *room, size_t numbers);

/* The keys in which two 'name' tables differ, in the order of keys, each once. Tags are not compared. Refusals as gv_name_check
   of the left table; then of the right one; then 29, with no side. As many rows as both tables have records together are always
   enough. */
gv_compared gv_name_compare(const uint8_t *left, size_t left_length, const uint8_t *right, size_t right_length, uint16_t *room,
                            size_t numbers);

/* ---- a chooser for the rack

   A rack has 32 slots, numbered 0 to 31, for the faces that a box may show. It is a struct that is passed and returned by
   value: a call gives the rack after it, and the one that was passed is the caller's still. Nothing is kept between calls.

       gv_rack rack = gv_rack_empty();
       gv_loaded loaded = gv_rack_load(rack, 0, 5, os2, os2_length, name, name_length);
       if (loaded.refusal.number == 0)
           rack = loaded.rack;
       gv_chosen chosen = gv_rack_request(rack, family, family_length, 400, 5, GV_UPRIGHT);
       if (chosen.refusal.number == 0)
           printf("slot %u\n", (unsigned)chosen.slot); */

#define GV_SLOTS 32u
#define GV_FAMILY_BYTES 64u

/* Which slope a request wants: 0 upright, any other number sloped. */
#define GV_UPRIGHT 0u
#define GV_SLOPED 1u

/* A slot. It holds a face exactly where `length` is 1 to 64, whatever its other members are. In an empty rack and after an
   unload no more is promised of a slot than that `length` is not 1 to 64; in fact it is 0. Where a slot holds a face, what
   stands in `family` behind the first `length` bytes is not promised. So compare slots by their faces, not byte by byte. */
typedef struct gv_slot {
    uint16_t weight;
    uint16_t width;                  /* the width class */
    uint16_t sloped;                 /* 0 where fsSelection bit 0 is clear, any other number where it is set */
    uint16_t length;                 /* of the family, in bytes */
    uint8_t family[GV_FAMILY_BYTES]; /* its first `length` bytes, as they stand in the 'name' table */
} gv_slot;

typedef struct gv_rack {
    gv_slot slots[GV_SLOTS];
} gv_rack;

/* The rack after a load or an unload. Where the call is refused every slot holds what it held. */
typedef struct gv_loaded {
    gv_refusal refusal;
    gv_rack rack;
} gv_loaded;

/* The slot of the chosen face. Where the call is refused it is 0, and stands for no slot. */
typedef struct gv_chosen {
    gv_refusal refusal;
    uint32_t slot;
} gv_chosen;

/* A rack of 32 empty slots. */
gv_rack gv_rack_empty(void);

/* Loads a font, by its two tables read at a level, into an empty slot; no other slot changes. The face's family is the string
   of the record (3, 1, 0x409, 16), or of (3, 1, 0x409, 1) where there is no such record: 1 to 64 bytes, whatever they are. The
   level is not kept. Refusals 1, 54, 53; then 2, 3, 52 of the OS/2 table; then as gv_name_check, 20, 51. */
gv_loaded gv_rack_load(gv_rack rack, uint32_t slot, uint32_t level, const uint8_t *os2, size_t os2_length,
                       const uint8_t *name, size_t name_length);

/* Empties a slot; no other slot changes. Refusals 54, 55. */
gv_loaded gv_rack_unload(gv_rack rack, uint32_t slot);

/* Chooses among the loaded faces whose family has exactly these bytes: one with the wanted slope first, then the smallest
   difference of width classes, then the smallest difference of weights, then the lower weight, then the lower slot. Where none
   has the slope, one of the other slope is chosen. Weight and width may be any numbers, and the family any bytes. It is asked
   for as it stands in the 'name' table, where it has two bytes a character: Ab is 0, 'A', 0, 'b'. Refusal 50. */
gv_chosen gv_rack_request(gv_rack rack, const uint8_t *family, size_t length, uint32_t weight, uint32_t width,
                          uint32_t slope);

#ifdef __cplusplus
}
#endif

#endif
