/*
 * former RULES RULES+: takes over a rule table that was made before the standard's defaults. Each mode and kind without a rule for any gets one that
 * unwraps and keeps the mode, behind the table's own rules; with the table written the library gives what it gave before for the one read.
 * Ends with 0; with 1 where the table is refused or 128 rules do not suffice; with 2 for wrong usage, or a file that cannot be read or written.
 */
#define _POSIX_C_SOURCE 200112L
#include <errno.h>
#include <fcntl.h>
#include <stdio.h>
#include <stdlib.h>
#include <string.h>
#include <sys/stat.h>
#include "calcivorne.h"

/* A table in bytes: its header, rules, URIs with a byte for the length of each. */
enum { MODES_AT = 1, RULES_AT = 3, HEADER = 4, RULE = 4, URI = 256 };
enum { MOST_URIS = 30, MOST_MODES = 32, MOST_RULES = 128, KINDS = 2 };
enum { MOST_BYTES = HEADER + MOST_RULES * RULE + MOST_URIS * URI };

/* A rule in bits: where its fields begin. A schema of 0 sets none. */
enum { MODE_BIT = 27, KIND_BIT = 26, CLASS_BIT = 18, ACTION_BIT = 16, NEXT_BIT = 3 };
enum { ANY = 255, UNWRAP = 1 };

enum { NO_TABLE = 1, FAILED = 2 };

static unsigned long get_rule(const unsigned char *at)
{
    return (unsigned long)at[0] << 24 | (unsigned long)at[1] << 16 | (unsigned long)at[2] << 8 | at[3];
}

static void put_rule(unsigned char *at, unsigned long rule)
{
    for (int i = 0; i < RULE; i++)
        at[i] = (unsigned char)(rule >> (24 - 8 * i));
}

static unsigned long unwrap_any(unsigned long mode, unsigned long kind)
{
    return mode << MODE_BIT | kind << KIND_BIT | (unsigned long)ANY << CLASS_BIT | (unsigned long)UNWRAP << ACTION_BIT | mode << NEXT_BIT;
}

/* Whether a rule of the table has this one's mode, kind and class, whatever its action. */
static int has_like(const unsigned char *table, unsigned long rule)
{
    for (size_t i = 0; i < table[RULES_AT]; i++)
        if (get_rule(table + HEADER + RULE * i) >> CLASS_BIT == rule >> CLASS_BIT)
            return 1;
    return 0;
}

/* Writes the rules that the table lacks, by mode, then kind; says how many. */
static size_t lacking(const unsigned char *table, unsigned long *rules)
{
    size_t count = 0;
    for (unsigned long mode = 0; mode < table[MODES_AT]; mode++)
        for (unsigned long kind = 0; kind < KINDS; kind++)
            if (!has_like(table, unwrap_any(mode, kind)))
                rules[count++] = unwrap_any(mode, kind);
    return count;
}

/* Writes the table with these rules between its own and the URIs; says how long it is. */
static size_t lengthen(const unsigned char *table, size_t len, const unsigned long *rules, size_t count, unsigned char *longer)
{
    size_t own = HEADER + (size_t)RULE * table[RULES_AT];
    memcpy(longer, table, own);
    longer[RULES_AT] = (unsigned char)(table[RULES_AT] + count);
    for (size_t i = 0; i < count; i++)
        put_rule(longer + own + RULE * i, rules[i]);
    memcpy(longer + own + RULE * count, table + own, len - own);
    return len + RULE * count;
}

static int accepted(const char *what, const unsigned char *table, size_t len)
{
    calcivorne_number answer[4];
    unsigned char number = calcivorne_judge(table, len, answer);
    if (number == 0)
        return 1;
    fprintf(stderr, "former: %s: the table is refused: %lu at %lu, %s\n", what, answer[0], answer[1],
            number == 10 ? "its length" : number == 11 ? "a field out of range" : "two entries that clash");
    return 0;
}

static int failed(const char *name, const char *what)
{
    fprintf(stderr, "former: %s: %s: %s\n", name, what, strerror(errno));
    return 0;
}

/* Reads a byte more than a table can have, so that a longer file is refused by its length. */
static int read_file(const char *name, unsigned char table[MOST_BYTES + 1], size_t *len)
{
    FILE *file = fopen(name, "rb");
    int whole;
    if (file == NULL)
        return failed(name, "cannot be read");
    *len = fread(table, 1, MOST_BYTES + 1, file);
    whole = !ferror(file) || failed(name, "cannot be read");
    fclose(file);
    return whole;
}

/* Writes a file that was not there; takes it away again where it could not be written to its end. */
static int write_new(const char *name, const unsigned char *bytes, size_t len)
{
    int made = open(name, O_WRONLY | O_CREAT | O_EXCL, 0666);
    FILE *file = made < 0 ? NULL : fdopen(made, "wb");
    int whole;
    if (file == NULL)
        return failed(name, "cannot be written");
    whole = fwrite(bytes, 1, len, file) == len;
    whole = fclose(file) == 0 && whole;
    if (whole)
        return 1;
    failed(name, "cannot be written");
    remove(name);
    return 0;
}

/* Writes beside the name and renames at last, so that nobody who reads the name meanwhile meets half a table. Only a plain file is written over. */
static int write_file(const char *name, const unsigned char *bytes, size_t len)
{
    static const char suffix[] = ".part";
    struct stat found;
    char *beside;
    int done;
    if (lstat(name, &found) == 0 && !S_ISREG(found.st_mode)) {
        fprintf(stderr, "former: %s: is there and is no plain file: it is not written over\n", name);
        return 0;
    }
    beside = malloc(strlen(name) + sizeof suffix);
    if (beside == NULL)
        return failed(name, "cannot be written");
    strcat(strcpy(beside, name), suffix);
    done = write_new(beside, bytes, len);
    if (done && rename(beside, name) != 0) {
        done = failed(name, "cannot be written");
        remove(beside);
    }
    free(beside);
    return done;
}

int main(int argc, char **argv)
{
    unsigned char table[MOST_BYTES + 1];
    unsigned char longer[MOST_BYTES];
    unsigned long rules[MOST_MODES * KINDS];
    size_t len = 0;
    size_t count;
    if (argc != 3) {
        fprintf(stderr, "usage: former RULES RULES+\n");
        return FAILED;
    }
    if (!read_file(argv[1], table, &len))
        return FAILED;
    if (!accepted(argv[1], table, len))
        return NO_TABLE;
    count = lacking(table, rules);
    if (table[RULES_AT] + count > MOST_RULES) {
        fprintf(stderr, "former: %s: has %d rules, %zu would be added, %d are the most: nothing is written\n",
                argv[1], table[RULES_AT], count, MOST_RULES);
        return NO_TABLE;
    }
    len = lengthen(table, len, rules, count, longer);
    if (!accepted("the table made, by a fault of this program", longer, len))
        return FAILED;
    return write_file(argv[2], longer, len) ? 0 : FAILED;
}
