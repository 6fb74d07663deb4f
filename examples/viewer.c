/*
 * viewer RULES SCENE: shows what the next event of a scene would cost before it is read, and lets the artist hold it. Each line of standard input is a word:
 *
 *     commit   takes the event that was shown, unless the scene or the session is another by now; then shows the next
 *     reload   reads the scene's file again: it may have grown
 *     ask      shows the next event again
 *
 * What was shown is held until it is committed. Ends with 0 at the end of standard input; with 1 for another word or wrong usage, or where a file cannot
 * be read or memory is lacking.
 */
#include <stdio.h>
#include <stdlib.h>
#include <string.h>
#include "calcivorne.h"

/* A file is refused where it is longer than a scene may be. */
enum { MOST_BYTES = 16777215 };

struct bytes {
    unsigned char *at;
    size_t len;
};

static struct bytes table, scene, session, offer;
static calcivorne_number asked[4];

static void fail(const char *what, const char *why)
{
    fprintf(stderr, "viewer: %s: %s\n", what, why);
    exit(1);
}

/* A byte more than asked for, so that there is always a pointer. */
static struct bytes room(size_t len)
{
    struct bytes made = {malloc(len + 1), len};
    if (made.at == NULL)
        fail("memory", "there is too little");
    return made;
}

static struct bytes load(const char *name)
{
    struct bytes read = room(MOST_BYTES + 1);
    FILE *file = fopen(name, "rb");
    if (file == NULL)
        fail(name, "it cannot be opened");
    read.len = fread(read.at, 1, read.len, file);
    if (ferror(file))
        fail(name, "it cannot be read");
    fclose(file);
    if (read.len > MOST_BYTES)
        fail(name, "it is too long");
    return read;
}

/* What the next event would cost. The session stays where it is. */
static void ask(void)
{
    calcivorne_ask(table.at, table.len, scene.at, scene.len, session.at, session.len, offer.at, offer.len, asked);
    if (asked[0] == 0)
        printf("next: up to %lu, %lu records\n", asked[1], asked[3]);
    else
        printf("nothing next: %lu at %lu\n", asked[0], asked[1]);
}

/* The event that was shown, in an output of the size that was shown. 30: the scene or the session is another by now. */
static void commit(void)
{
    calcivorne_number answer[4];
    struct bytes out = room(16 * asked[3]);
    calcivorne_commit(offer.at, offer.len, session.at, session.len, table.at, table.len, scene.at, scene.len, out.at, out.len, answer);
    if (answer[0] == 0)
        printf("committed: up to %lu, %lu records\n", answer[1], answer[3]);
    else
        printf("not committed: %lu at %lu\n", answer[0], answer[1]);
    free(out.at);
    ask();
}

static void reload(const char *name)
{
    free(scene.at);
    scene = load(name);
    printf("the scene has %lu bytes\n", (unsigned long)scene.len);
}

int main(int count, char **words)
{
    char line[16];
    if (count != 3)
        fail("usage", "viewer RULES SCENE");
    table = load(words[1]);
    session = room((size_t)calcivorne_session_size());
    offer = room((size_t)calcivorne_offer_size());
    calcivorne_fresh(session.at, session.len);
    reload(words[2]);
    ask();
    while (fflush(stdout) == 0 && fgets(line, sizeof line, stdin) != NULL) {
        line[strcspn(line, "\n")] = '\0';
        if (strcmp(line, "ask") == 0)
            ask();
        else if (strcmp(line, "commit") == 0)
            commit();
        else if (strcmp(line, "reload") == 0)
            reload(words[2]);
        else
            fail(line, "the words are commit, reload and ask");
    }
    free(table.at);
    free(scene.at);
    free(session.at);
    free(offer.at);
    return 0;
}
