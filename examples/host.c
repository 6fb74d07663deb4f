/* A host in C: sample A by one run, in an output of the size that the forecast gives, then event by event, then as it comes in, five bytes at a time. */
#include <stdio.h>
#include <stdlib.h>
#include "calcivorne.h"

#define CHUNK 5
#define ROOM 32

static const unsigned char table[] = {0x01, 0x02, 0x01, 0x01, 0x00, 0x06, 0x00, 0x08, 0x01, 0x75};
static const char text[] = "<r xmlns=\"u\">a<x/></r>";

static unsigned char out[65536];

/* A number of so many bytes, the most significant first. */
static unsigned long field(const unsigned char *at, int bytes)
{
    unsigned long value = 0;
    int i;
    for (i = 0; i < bytes; i++)
        value = value * 256 + at[i];
    return value;
}

static void print_record(const unsigned char *r)
{
    printf("%lu %lu %lu %lu %lu %lu %lu\n",
           field(r, 2), field(r + 2, 1), field(r + 3, 1), field(r + 4, 3), field(r + 7, 3), field(r + 10, 3), field(r + 13, 3));
}

/* The output is set aside by the forecast; a byte more, so that there is a pointer where no record is written. */
static int whole(const unsigned char *scene, size_t len)
{
    calcivorne_number figures[6];
    calcivorne_number answer[4];
    calcivorne_number i;
    unsigned char *records;
    calcivorne_forecast(table, sizeof table, scene, len, figures);
    printf("forecast: %lu, %lu records, %lu units, %lu strands, depth %lu\n", figures[0], figures[2], figures[3], figures[4], figures[5]);
    records = malloc(16 * figures[2] + 1);
    if (records == NULL)
        return 1;
    calcivorne_run(table, sizeof table, scene, len, records, 16 * figures[2], answer);
    for (i = 0; i < answer[3]; i++)
        print_record(records + 16 * i);
    printf("%lu %lu %lu %lu\n", answer[0], answer[1], answer[2], answer[3]);
    free(records);
    return 0;
}

/* For a host that does something at each event: where it ends, and its records alone. */
static void event_by_event(const unsigned char *scene, size_t len, unsigned char *session, size_t size)
{
    calcivorne_number answer[4];
    calcivorne_fresh(session, size);
    while (calcivorne_step(table, sizeof table, scene, len, session, size, out, sizeof out, answer) == 0)
        printf("event up to %lu: %lu records\n", answer[1], answer[3]);
    printf("event by event: %lu\n", answer[0]);
}

/*
 * The scene grows: on 1, or on 9 while bytes are still to come, the next ones are appended and the same session goes on.
 * The output is kept short here: on 25 the records so far are taken, and the session goes on with all of the output.
 */
static void in_chunks(const unsigned char *scene, size_t len, unsigned char *session, size_t size)
{
    calcivorne_number answer[4];
    calcivorne_number events = 0;
    calcivorne_number records = 0;
    size_t come = 0;
    calcivorne_fresh(session, size);
    for (;;) {
        calcivorne_advance(table, sizeof table, scene, come, session, size, (calcivorne_number)-1, out, ROOM, answer);
        events += answer[2];
        records += answer[3];
        if (answer[0] == 25 && answer[2] > 0)
            continue;
        if ((answer[0] != 1 && answer[0] != 9) || come == len)
            break;
        come = len - come < CHUNK ? len : come + CHUNK;
    }
    printf("in chunks: %lu, %lu events, %lu records\n", answer[0], events, records);
}

int main(void)
{
    const unsigned char *scene = (const unsigned char *)text;
    size_t len = sizeof text - 1;
    size_t size = (size_t)calcivorne_session_size();
    unsigned char *session = malloc(size);
    if (session == NULL || whole(scene, len) != 0)
        return 1;
    event_by_event(scene, len, session, size);
    in_chunks(scene, len, session, size);
    free(session);
    return 0;
}
