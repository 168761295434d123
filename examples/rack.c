/*
 * Loads three fonts into a rack, and asks which of them to show.
 *
 *     rack FAMILY WEIGHT WIDTH SLOPE OS2 NAME OS2 NAME OS2 NAME
 *
 * FAMILY is a family's name in ASCII. WEIGHT and WIDTH are numbers, such as 400 and 5, and SLOPE is `upright` or `sloped`. OS2
 * and NAME are files that hold a font's 'OS/2' table and its 'name' table, as `examples/cut` cuts them out of a font. The fonts
 * go into slots 0, 1 and 2. A line for each says what the slot holds, or by which number the font is refused. Then comes the
 * slot that is chosen, and the one that is chosen once that slot is empty. Where a file can't be read, a message says so on
 * standard error and nothing is printed.
 *
 * `make -C examples` builds it, once `./archive` has made the archive. By hand, from the repository's root:
 *
 *     cc -std=c99 -Iinclude -o rack examples/rack.c target/staticlib/libgyalvindor.a
 */
#include "gyalvindor.h"

#include <stdio.h>
#include <stdlib.h>
#include <string.h>

/* How many fonts are loaded, and the highest 'OS/2' version that this box knows. */
#define FONTS 3
#define LEVEL 5
/* The most bytes of a file that is read: as many as ./run reads. */
#define LONGEST_TABLE 65536
/* No slot holds a family of more characters, with two bytes each. */
#define LONGEST_FAMILY (GV_FAMILY_BYTES / 2)

struct table {
    uint8_t bytes[LONGEST_TABLE + 1];
    size_t length;
};

struct request {
    uint8_t family[2 * (LONGEST_FAMILY + 1)];
    size_t length;
    uint32_t weight;
    uint32_t width;
    uint32_t slope;
};

static struct table os2[FONTS];
static struct table name[FONTS];

/* Says whether a call is refused, and prints the refusal with what it carries. */
static int refused(gv_refusal refusal)
{
    if (refusal.number == 0)
        return 0;
    printf("refused %lu", (unsigned long)refusal.number);
    if (refusal.carries)
        printf(" at %lu", (unsigned long)refusal.carried);
    printf("\n");
    return 1;
}

/* Prints the face in a slot. Of the family's bytes, zeros are left out, and what is not ASCII is shown as '?'. */
static void print_face(const gv_slot *slot)
{
    size_t i;

    for (i = 0; i < slot->length; i++)
        if (slot->family[i] != 0)
            putchar(slot->family[i] >= 32 && slot->family[i] <= 126 ? slot->family[i] : '?');
    printf(", weight %u, width %u, %s\n", slot->weight, slot->width, slot->sloped ? "sloped" : "upright");
}

/* Loads each font into its slot, and prints what the slot holds. */
static gv_rack load_fonts(void)
{
    gv_rack rack = gv_rack_empty();
    uint32_t slot;

    for (slot = 0; slot < FONTS; slot++) {
        gv_loaded loaded =
            gv_rack_load(rack, slot, LEVEL, os2[slot].bytes, os2[slot].length, name[slot].bytes, name[slot].length);
        printf("slot %lu: ", (unsigned long)slot);
        if (!refused(loaded.refusal)) {
            rack = loaded.rack;
            print_face(&rack.slots[slot]);
        }
    }
    return rack;
}

/* Prints the slot that is chosen, or the refusal. Says whether one is chosen. */
static int ask(gv_rack rack, const struct request *wanted, uint32_t *slot)
{
    gv_chosen chosen =
        gv_rack_request(rack, wanted->family, wanted->length, wanted->weight, wanted->width, wanted->slope);

    if (refused(chosen.refusal))
        return 0;
    printf("slot %lu\n", (unsigned long)chosen.slot);
    *slot = chosen.slot;
    return 1;
}

/* Reads a number below 2 to the 32nd. Says whether the word is one. */
static int read_number(const char *word, uint32_t *number)
{
    char *end;
    unsigned long long value = strtoull(word, &end, 10);

    *number = (uint32_t)value;
    return word[0] >= '0' && word[0] <= '9' && *end == '\0' && value <= UINT32_MAX;
}

/* Reads a request from four words. Says whether they are one. A family has two bytes a character, as in the 'name' table; of
   one that is too long for any slot the start is enough. */
static int read_request(char **words, struct request *wanted)
{
    size_t i;

    wanted->length = 0;
    for (i = 0; words[0][i] != '\0' && i <= LONGEST_FAMILY; i++) {
        wanted->family[wanted->length++] = 0;
        wanted->family[wanted->length++] = (uint8_t)words[0][i];
    }
    wanted->slope = strcmp(words[3], "sloped") == 0 ? GV_SLOPED : GV_UPRIGHT;
    return read_number(words[1], &wanted->weight) && read_number(words[2], &wanted->width) &&
           (wanted->slope == GV_SLOPED || strcmp(words[3], "upright") == 0);
}

/* Reads a file. Says whether it could be read, and says on standard error why not. */
static int read_table(const char *path, struct table *table)
{
    FILE *file = fopen(path, "rb");
    int done = 0;

    if (file != NULL) {
        table->length = fread(table->bytes, 1, sizeof table->bytes, file);
        done = !ferror(file);
    }
    if (!done)
        perror(path);
    if (file != NULL)
        fclose(file);
    if (done && table->length > LONGEST_TABLE) {
        fprintf(stderr, "%s: too long\n", path);
        done = 0;
    }
    return done;
}

int main(int count, char **words)
{
    struct request wanted;
    gv_rack rack;
    uint32_t slot;
    size_t i;

    if (count != 5 + 2 * FONTS || !read_request(words + 1, &wanted)) {
        fprintf(stderr, "usage: rack FAMILY WEIGHT WIDTH upright|sloped OS2 NAME OS2 NAME OS2 NAME\n");
        return 2;
    }
    for (i = 0; i < FONTS; i++)
        if (!read_table(words[5 + 2 * i], &os2[i]) || !read_table(words[6 + 2 * i], &name[i]))
            return 1;

    rack = load_fonts();
    printf("answer: ");
    if (ask(rack, &wanted, &slot)) {
        rack = gv_rack_unload(rack, slot).rack;
        printf("without slot %lu: ", (unsigned long)slot);
        ask(rack, &wanted, &slot);
    }
    return 0;
}
