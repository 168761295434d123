/*
 * Renames a font's family: writes a font's 'name' table once more, with another family name.
 *
 *     rename TABLE FAMILY > NEWTABLE
 *
 * TABLE holds the bytes of one 'name' table of format 0, not of a whole font. The text of each record with name 1, the family,
 * is replaced: on platform 3 with encoding 1 (two bytes a character) and on platform 1 with encoding 0 (one byte a character),
 * in every language. All other texts stay as they are. FAMILY has 1 to 32767 printable characters of ASCII. Where something
 * can't be read or is refused, nothing is written.
 *
 * `make -C examples` builds it, once `./archive` has made the archive. By hand, from the repository's root:
 *
 *     cc -std=c99 -Iinclude -o rename examples/rename.c target/staticlib/libgyalvindor.a
 */
#include "gyalvindor.h"

#include <stdio.h>
#include <stdlib.h>
#include <string.h>

/* A length has 16 bits: no text is longer than 65535 bytes, and no family of two bytes a character than 32767 characters. */
#define LONGEST_TEXT 65535
#define LONGEST_FAMILY 32767
/* An accepted table has at most so many records. */
#define MOST_RECORDS 5460

static gv_entry entries[MOST_RECORDS];

/* Any table that is written has room here: its last text starts at offset 65535 at most. */
static uint8_t room[6 + 12 * MOST_RECORDS + 65535 + LONGEST_TEXT];

/* Says on standard error what is wrong with a table. */
static int failed(const char *path, const char *message)
{
    fprintf(stderr, "rename: %s: %s\n", path, message);
    return 1;
}

/* Says whether a call is refused, and says on standard error by what, with what the refusal carries. */
static int refused(const char *path, const char *what, gv_refusal refusal)
{
    if (refusal.number == 0)
        return 0;
    fprintf(stderr, "rename: %s: %s refused %lu", path, what, (unsigned long)refusal.number);
    if (refusal.carries)
        fprintf(stderr, " at %lu", (unsigned long)refusal.carried);
    fprintf(stderr, "\n");
    return 1;
}

/* The bytes of a file, to be freed; NULL, and a message, where it can't be read. */
static uint8_t *read_file(const char *path, size_t *length)
{
    FILE *file = fopen(path, "rb");
    uint8_t *bytes = NULL;
    size_t space = 0;

    *length = 0;
    if (file != NULL) {
        for (;;) {
            if (*length == space) {
                uint8_t *more = (uint8_t *)realloc(bytes, space = 2 * space + 4096);
                if (more == NULL)
                    break;
                bytes = more;
            }
            *length += fread(bytes + *length, 1, space - *length, file);
            if (*length < space) {
                if (ferror(file))
                    break;
                fclose(file);
                return bytes;
            }
        }
        fclose(file);
    }
    perror(path);
    free(bytes);
    return NULL;
}

/* The 16-bit number at a place of an accepted table. */
static uint16_t number_at(const uint8_t *table, size_t at)
{
    return (uint16_t)(table[at] << 8 | table[at + 1]);
}

/* Makes an entry of each record of an accepted table, with the table as the pool. Gives their number. */
static size_t list_records(const uint8_t *table)
{
    size_t count = number_at(table, 2);
    size_t storage = number_at(table, 4);
    size_t i;

    for (i = 0; i < count; i++) {
        const uint8_t *record = table + 6 + 12 * i;
        entries[i].platform = number_at(record, 0);
        entries[i].encoding = number_at(record, 2);
        entries[i].language = number_at(record, 4);
        entries[i].name = number_at(record, 6);
        entries[i].length = number_at(record, 8);
        entries[i].start = storage + number_at(record, 10);
    }
    return count;
}

/* Gives the family records another text: `size` characters that stand in the pool from `at` on, first with one byte each, then
   with two. Gives how many records that are. */
static size_t replace_family(size_t count, size_t at, size_t size)
{
    size_t replaced = 0;
    size_t i;

    for (i = 0; i < count; i++) {
        gv_entry *entry = &entries[i];
        if (entry->name != 1)
            continue;
        if (entry->platform == 1 && entry->encoding == 0) {
            entry->start = at;
            entry->length = (uint16_t)size;
            replaced++;
        } else if (entry->platform == 3 && entry->encoding == 1) {
            entry->start = at + size;
            entry->length = (uint16_t)(2 * size);
            replaced++;
        }
    }
    return replaced;
}

/* Puts the family behind the table's bytes, first with one byte a character, then with two. Gives the pool, to be freed in the
   table's place; NULL where there is no memory for it. */
static uint8_t *with_family(uint8_t *table, size_t length, const char *family, size_t size)
{
    uint8_t *pool = (uint8_t *)realloc(table, length + 3 * size);
    size_t i;

    if (pool == NULL)
        return NULL;
    for (i = 0; i < size; i++) {
        pool[length + i] = (uint8_t)family[i];
        pool[length + size + 2 * i] = 0;
        pool[length + size + 2 * i + 1] = (uint8_t)family[i];
    }
    return pool;
}

/* Says what is wrong with a family; NULL where it may be written. */
static const char *family_fault(const char *family, size_t size)
{
    size_t i;

    if (size == 0)
        return "the family is empty";
    if (size > LONGEST_FAMILY)
        return "the family has more than 32767 characters";
    for (i = 0; i < size; i++)
        if (family[i] < 32 || family[i] > 126)
            return "the family has a character that is not printable ASCII";
    return NULL;
}

/* Renames the family of an accepted table of format 0. The pool is the table and, behind it, the family. */
static int rename_family(const char *path, const uint8_t *pool, size_t length, size_t size)
{
    size_t count = list_records(pool);
    gv_written written;

    if (replace_family(count, length, size) == 0)
        return failed(path, "it has no family record to replace");
    written = gv_name_write(entries, count, pool, length + 3 * size, room, sizeof room);
    if (refused(path, "the new table is", written.refusal))
        return 1;
    if (fwrite(room, 1, written.size, stdout) != written.size || fflush(stdout) != 0) {
        perror("standard output");
        return 1;
    }
    return 0;
}

int main(int count, char **words)
{
    const char *fault;
    uint8_t *table;
    uint8_t *pool;
    size_t length;
    size_t size;
    int status;

    if (count != 3) {
        fprintf(stderr, "usage: rename TABLE FAMILY > NEWTABLE\n");
        return 2;
    }
    size = strlen(words[2]);
    fault = family_fault(words[2], size);
    if (fault != NULL) {
        fprintf(stderr, "rename: %s\n", fault);
        return 1;
    }
    table = read_file(words[1], &length);
    if (table == NULL)
        return 1;
    if (refused(words[1], "the table is", gv_name_check(table, length))) {
        free(table);
        return 1;
    }
    if (number_at(table, 0) != 0) {
        failed(words[1], "it has format 1, and a table of format 0 can't have its language tags");
        free(table);
        return 1;
    }
    pool = with_family(table, length, words[2], size);
    if (pool == NULL) {
        failed(words[1], "no memory");
        free(table);
        return 1;
    }
    status = rename_family(words[1], pool, length, size);
    free(pool);
    return status;
}
