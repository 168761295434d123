/*
 * Prints what a font's 'name' and 'OS/2' tables say of its face.
 *
 *     face                     the two tables that stand in this file; also refusals, what changed, writing and rewriting
 *     face name FILE           the 'name' table in FILE
 *     face os2 FILE [LEVEL]    the 'OS/2' table in FILE; the level is 5 where none is given
 *
 * FILE holds the bytes of one table, not of a whole font.
 *
 * `make -C examples` builds it, once `./archive` has made the archive. By hand, from the repository's root:
 *
 *     cc -std=c99 -Iinclude -o face examples/face.c target/staticlib/libgyalvindor.a
 */
#include "gyalvindor.h"

#include <stdio.h>
#include <stdlib.h>
#include <string.h>

/* A 'name' table: format 0, three records, storage at byte 42. */
static const uint8_t name_table[] = {
    0, 0, 0, 3, 0, 42,
    /* platform, encoding, language, name, length, offset */
    0, 1, 0, 0, 0, 0, 0, 6, 0, 10, 0, 0,       /* the PostScript name, one byte a character */
    0, 3, 0, 1, 4, 9, 0, 5, 0, 24, 0, 30,      /* the version, two bytes a character */
    0, 3, 0, 1, 4, 9, 0, 6, 0, 20, 0, 10,      /* the PostScript name, two bytes a character */
    'S', 'm', 'a', 'l', 'l', '-', 'B', 'o', 'l', 'd',
    0, 'S', 0, 'm', 0, 'a', 0, 'l', 0, 'l', 0, '-', 0, 'B', 0, 'o', 0, 'l', 0, 'd',
    0, 'V', 0, 'e', 0, 'r', 0, 's', 0, 'i', 0, 'o', 0, 'n', 0, ' ', 0, '2', 0, '.', 0, '1', 0, '7'
};

/* An 'OS/2' table of version 5, 100 bytes. */
static const uint8_t os2_table[] = {
    0, 5,                                           /* version */
    2, 88, 2, 188, 0, 4,                            /* average width 600, weight 700, width 4 */
    0, 8,                                           /* fsType: editable */
    2, 88, 2, 188, 0, 0, 0, 140,                    /* subscript */
    2, 88, 2, 188, 0, 0, 1, 224,                    /* superscript */
    0, 50, 1, 2, 0, 0,                              /* strikeout size and position, family class */
    2, 0, 8, 3, 0, 0, 0, 0, 0, 0,                   /* PANOSE */
    0, 0, 0, 3, 0, 0, 0, 0, 0, 0, 0, 0, 0, 0, 0, 0, /* Unicode ranges: bits 0 and 1 */
    'N', 'O', 'N', 'E',                             /* vendor */
    0, 0xA0,                                        /* fsSelection: bits 5 and 7 */
    0, 32, 0, 255,                                  /* first and last character */
    2, 238, 255, 6, 0, 90, 3, 132, 1, 44,           /* typo ascender, descender, gap; win ascent, descent */
    0, 0, 0, 1, 0, 0, 0, 0,                         /* code pages: bit 0 */
    1, 244, 2, 188, 0, 0, 0, 32, 0, 2,              /* x height, cap height, default, break, max context */
    0, 130, 0, 240                                  /* optical sizes: 6.5 to 12 points */
};

/* Says whether a call is refused, and prints the refusal with what it carries. */
static int refused(gv_refusal refusal)
{
    if (refusal.number == 0)
        return 0;
    printf("refused %lu", (unsigned long)refusal.number);
    if (refusal.carries)
        printf(" at %lu", (unsigned long)refusal.carried);
    printf("\n");
    return 1;
}

/* Says whether there is a value, and prints what there is where there is none. */
static int valued(gv_refusal refusal, uint32_t kind)
{
    if (refused(refusal))
        return 0;
    if (kind == GV_ABSENT)
        printf("absent\n");
    if (kind == GV_NOT_KNOWN)
        printf("not known\n");
    return kind == GV_VALUE;
}

static void print_number(const char *title, gv_number number)
{
    printf("  %s: ", title);
    if (valued(number.refusal, number.kind))
        printf("%lld\n", (long long)number.value);
}

static void print_name(const uint8_t *table, size_t length)
{
    gv_text text;
    gv_version version;
    gv_found family;

    /* A well-formed PostScript name holds printable characters only. */
    printf("  PostScript name: ");
    text = gv_name_postscript(table, length);
    if (!refused(text.refusal)) {
        fwrite(table + text.start, 1, text.length, stdout);
        printf(" (record %lu)\n", (unsigned long)text.record);
    }

    printf("  version number: ");
    version = gv_name_version(table, length);
    if (!refused(version.refusal))
        printf("%lu and %lu (record %lu)\n", (unsigned long)version.major, (unsigned long)version.minor,
               (unsigned long)version.record);

    printf("  family name, Windows, US English: ");
    family = gv_name_lookup(table, length, 3, 1, 0x409, 1);
    if (!refused(family.refusal))
        printf("%lu bytes from byte %lu (record %lu)\n", (unsigned long)family.length, (unsigned long)family.start,
               (unsigned long)family.record);
    printf("  records looked at for it: %lu\n", (unsigned long)family.looked);
}

static void print_os2(const uint8_t *table, size_t length, uint32_t level)
{
    static const char *const rights_words[] = {"installable", "restricted", "preview", "editable"};
    gv_rights rights;
    gv_style style;
    gv_optical optical;

    print_number("version", gv_os2_field(table, length, level, GV_VERSION));
    print_number("weight", gv_os2_field(table, length, level, GV_WEIGHT));
    print_number("typo descender", gv_os2_field(table, length, level, GV_TYPO_DESCENDER));
    print_number("x height", gv_os2_field(table, length, level, GV_X_HEIGHT));
    print_number("bold", gv_os2_selection_bit(table, length, level, 5));
    print_number("typo metrics wanted", gv_os2_selection_bit(table, length, level, 7));
    print_number("Latin 1", gv_os2_unicode_bit(table, length, level, 1));
    print_number("code page 1252", gv_os2_code_page_bit(table, length, level, 0));

    printf("  rights: ");
    rights = gv_os2_rights(table, length, level);
    if (valued(rights.refusal, rights.kind))
        printf("%s\n", rights_words[rights.rights]);

    printf("  style position: ");
    style = gv_os2_style_position(table, length, level);
    if (valued(style.refusal, style.kind))
        printf("weight %g, width %g percent\n", (double)style.weight, (double)style.width);

    printf("  optical sizes: ");
    optical = gv_os2_optical_sizes(table, length, level);
    if (valued(optical.refusal, optical.kind)) {
        if (optical.sizes == GV_EVERY)
            printf("every size\n");
        else if (optical.sizes == GV_UPWARDS)
            printf("from %g points upwards\n", (double)optical.lower);
        else
            printf("between %g and %g points\n", (double)optical.lower, (double)optical.upper);
    }
}

/* What is refused, and what a refusal carries. */
static void print_refusals(void)
{
    uint8_t broken[sizeof os2_table];

    printf("  a 'name' table that lost its last byte: ");
    refused(gv_name_check(name_table, sizeof name_table - 1));

    /* Refusal 3 carries the first rule broken: rule 2 wants a width of 1 to 9. */
    memcpy(broken, os2_table, sizeof broken);
    broken[7] = 10;
    printf("  an 'OS/2' table with width 10: ");
    refused(gv_os2_check(broken, sizeof broken, 5));
    printf("  the same at level 4, which does not judge version 5: ");
    if (!refused(gv_os2_check(broken, sizeof broken, 4)))
        printf("accepted\n");
    printf("  level 6: ");
    refused(gv_os2_check(os2_table, sizeof os2_table, 6));
    printf("  field 48: ");
    refused(gv_os2_field(os2_table, sizeof os2_table, 5, GV_FIELDS).refusal);
}

/* A row is five numbers with no gap, so rows can be lent as numbers. */
typedef char rows_are_numbers[sizeof(gv_os2_difference) == 5 * sizeof(int64_t) && sizeof(gv_name_difference) == 5 * sizeof(uint16_t) ? 1 : -1];

static void print_answer(int64_t kind, int64_t value)
{
    if (kind == GV_VALUE)
        printf(" %lld", (long long)value);
    else
        printf(" absent");
}

/* What changed between two deliveries of each table. */
static void print_changes(void)
{
    static const char *const which_words[] = {"", "only left", "only right", "other bytes"};
    uint8_t lighter[sizeof os2_table];
    uint8_t renamed[sizeof name_table];
    gv_os2_difference fields[GV_FIELDS];
    gv_name_difference keys[6];
    gv_compared done;
    size_t i;

    /* Version 4 has no optical sizes, and here also another weight. */
    memcpy(lighter, os2_table, sizeof lighter);
    lighter[1] = 4;
    lighter[4] = 1;
    lighter[5] = 144;
    done = gv_os2_compare(os2_table, sizeof os2_table, lighter, sizeof lighter, 5, (int64_t *)fields, 5 * GV_FIELDS);
    for (i = 0; i < done.rows; i++) {
        printf("  field %d:", (int)fields[i].field);
        print_answer(fields[i].left_kind, fields[i].left_value);
        printf(" to");
        print_answer(fields[i].right_kind, fields[i].right_value);
        printf("\n");
    }
    printf("  in room for 3 rows: ");
    refused(gv_os2_compare(os2_table, sizeof os2_table, lighter, sizeof lighter, 5, (int64_t *)fields, 5 * 3).refusal);
    done = gv_os2_compare(os2_table, 99, lighter, sizeof lighter, 5, (int64_t *)fields, 5 * GV_FIELDS);
    printf("  with 99 bytes on the left: %s ", done.side == GV_LEFT ? "left" : "right");
    refused(done.refusal);

    /* The first record gets another key, and the version text ends otherwise. */
    memcpy(renamed, name_table, sizeof renamed);
    renamed[13] = 4;
    renamed[sizeof renamed - 1] = '8';
    done = gv_name_compare(name_table, sizeof name_table, renamed, sizeof renamed, (uint16_t *)keys, 5 * 6);
    for (i = 0; i < done.rows; i++)
        printf("  key %u %u %u %u: %s\n", keys[i].platform, keys[i].encoding, keys[i].language, keys[i].name,
               which_words[keys[i].which]);
}

static void print_written(const char *title, gv_written written)
{
    printf("  %s: ", title);
    if (!refused(written.refusal))
        printf("%lu bytes\n", (unsigned long)written.size);
}

/* Writes a table from its 48 numbers, then rewrites one. */
static void print_writing(void)
{
    int64_t numbers[GV_FIELDS] = {0};
    uint8_t room[120];
    gv_written written;

    numbers[GV_VERSION] = 4;
    numbers[GV_WEIGHT] = 400;
    numbers[GV_WIDTH] = 5;
    numbers[GV_TYPO_DESCENDER] = -250;
    memset(room, 0xEE, sizeof room);
    written = gv_os2_write(numbers, room, sizeof room);
    print_written("a table of version 4", written);
    print_number("its typo descender", gv_os2_field(room, written.size, 5, GV_TYPO_DESCENDER));
    printf("  the byte after it: %02X\n", (unsigned)room[written.size]);
    print_written("with 95 bytes of room", gv_os2_write(numbers, room, 95));
    /* Refusal 8 carries the lowest field whose number does not fit. */
    numbers[GV_TYPO_DESCENDER] = -32769;
    print_written("with a typo descender of -32769", gv_os2_write(numbers, room, sizeof room));

    written = gv_os2_rewrite(os2_table, sizeof os2_table, room, sizeof room);
    print_written("the table of version 5, rewritten", written);
    printf("  the same bytes: %s\n", memcmp(room, os2_table, written.size) == 0 ? "yes" : "no");
}

/* The bytes of a file, to be freed; NULL, and a message, where it can't be read. */
static uint8_t *read_file(const char *path, size_t *length)
{
    FILE *file = fopen(path, "rb");
    uint8_t *bytes = NULL;
    size_t room = 0;

    *length = 0;
    if (file != NULL) {
        for (;;) {
            if (*length == room) {
                uint8_t *more = (uint8_t *)realloc(bytes, room = 2 * room + 4096);
                if (more == NULL)
                    break;
                bytes = more;
            }
            *length += fread(bytes + *length, 1, room - *length, file);
            if (*length < room) {
                if (ferror(file))
                    break;
                fclose(file);
                return bytes;
            }
        }
        fclose(file);
    }
    perror(path);
    free(bytes);
    return NULL;
}

int main(int count, char **words)
{
    if (count == 1) {
        printf("name table\n");
        print_name(name_table, sizeof name_table);
        printf("OS/2 table, level 5\n");
        print_os2(os2_table, sizeof os2_table, 5);
        printf("OS/2 table, level 3\n");
        print_os2(os2_table, sizeof os2_table, 3);
        printf("refusals\n");
        print_refusals();
        printf("changes\n");
        print_changes();
        printf("writing\n");
        print_writing();
    } else if (count == 3 && strcmp(words[1], "name") == 0) {
        size_t length;
        uint8_t *table = read_file(words[2], &length);
        if (table == NULL)
            return 1;
        printf("name table\n");
        print_name(table, length);
        free(table);
    } else if ((count == 3 || count == 4) && strcmp(words[1], "os2") == 0) {
        size_t length;
        uint32_t level = count == 4 ? (uint32_t)strtoul(words[3], NULL, 10) : 5;
        uint8_t *table = read_file(words[2], &length);
        if (table == NULL)
            return 1;
        printf("OS/2 table, level %lu\n", (unsigned long)level);
        print_os2(table, length, level);
        free(table);
    } else {
        fprintf(stderr, "usage: face | face name FILE | face os2 FILE [LEVEL]\n");
        return 2;
    }
    return 0;
}
