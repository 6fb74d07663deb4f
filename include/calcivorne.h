/*
 * calcivorne.h: the dispatcher for hosts in C and C++. This file is the manual of the interface.
 *
 * The library is libcalcivorne.a, libcalcivorne_forecast.a for calcivorne_forecast, and libcalcivorne_offers.a for calcivorne_ask, calcivorne_commit and
 * calcivorne_offer_size, for Linux on x86-64; `./install PREFIX` puts them and this file under a prefix. examples/ has hosts in C, Rust and Python.
 *
 * SLICES. A run of bytes is passed as a pointer and a length. A length may be 0; the pointer must then not be NULL all the same. All the bytes of
 * a slice must be there to be read and, where the parameter is not const, to be written, and no two of a call's slices and arrays may overlap.
 * Nothing else is asked of an argument: every table, scene, session and output, whatever its bytes, has an answer below.
 *
 * A call reads its slices and writes what is said of it here, and nothing else: it keeps no pointer, has no memory of earlier calls, allocates
 * nothing and prints nothing. Calls on different buffers may run at the same time.
 *
 * A SCENE is XML in a subset: elements, attributes, text, the five references, comments, processing instructions, and an XML declaration at its first
 * byte. Comments, instructions and the declaration make no event and no record: a step passes over those in front of its event, and its place is its
 * event's. A text ends where one begins, and a new text starts behind it. No CDATA, no DTD, no numeric references: their bytes are refused with 2.
 * It is read as UTF-8, whatever its declaration says: names may have the characters that XML 1.0, fifth edition, gives them, text, values, comments and
 * instructions any XML character. A byte with which no character goes on that may stand there is 2; one that the scene's end cuts is 1. Places, offsets
 * and limits count bytes; names and namespaces are equal when their bytes are. No byte order mark: its first byte is refused.
 *
 * THE ANSWER. judge, run, step, advance, ask and commit write four numbers:
 *
 *     answer[0]  number    see below; the call returns it too
 *     answer[1]  place     where in the scene, or for judge in the table
 *     answer[2]  events    judge, ask: 0. step, commit: 1 with number 0, else 0. run and advance: the steps that gave 0
 *     answer[3]  records   how many records stand in the output, 16 bytes each, from its first byte on; ask: how many would
 *
 *     number                                                                              place
 *       0  step, commit: an event; ask: one comes next. advance: so many steps            the new session's
 *          judge: the table is accepted                                                   the table's length
 *       1  the scene ends, and nothing else is wrong so far: go on with a longer one      the scene's length
 *       2  a byte that cannot stand there                                                 that byte
 *       3  the 65th byte of a name's part, or the first of a 17th attribute               that byte
 *       4  an end tag's name is not that of the open element                              the tag's <
 *       5  a prefix that is not bound, or a declaration that is not allowed               the tag's <
 *       6  an attribute stands twice                                                      the tag's <
 *       7  the scene is over 16,777,215 bytes                                             0
 *       9  finished: the root has closed; only space, comments, instructions follow       the scene's length
 *      10  the table is under 4 bytes, or not of the length that it needs                 0
 *      11  a field of the table is out of range                                           0
 *      12  the table repeats a URI or a rule, or two of its rules contradict              0
 *      20  the bytes hold no session, or one that does not fit this table and scene       0
 *      21  a 65th open element                                                            the tag's <
 *      22  a 65th open declaration                                                        the tag's <
 *      23  a 17th strand                                                                  the tag's <
 *      24  a unit past 65,535                                                             the tag's <
 *      25  the event's records exceed the output; run, advance: what is left of it        the tag's <, or the text's first byte
 *      30  commit: the session, or the scene's length, is not the offer's                 0
 *     255  the session's or the offer's slice is shorter than it has to be                the answer is not written
 *
 * 8, 13 to 19 and 26 to 29 are not used. Where several hold, the first of this order is given: 255; 10 under 4 bytes, 11 of the first four, 10, 11, 12; 7;
 * 20; 30; 1, 2, 3 or 9; 4; 5, 6, 21, 22, 23, 24; 25. run and forecast never give 0, 20 or 255, forecast and ask never 25, judge only 0 and 10 to 12, and 30
 * is commit's alone. With another number than 0 run and advance tell of their last step, behind the events that they count.
 *
 * A RECORD. 16 bytes, the most significant byte of a field first; a field that a kind does not use is zero:
 *
 *     bytes  0,  1    unit, counted from 0 as opened
 *     byte   2        kind: 0 open, 1 start, 2 attribute, 3 attribute value, 4 text, 5 end, 6 close
 *     byte   3        class: 0 no namespace, 1 to 30 the table's, 254 that of the prefix xml, 255 any other, 253 the virtual element that holds the
 *                     attributes of an attribute unit; of an open, the schema: one of the table's, or 255, reject, where no rule was taken
 *     bytes  4 to  6  offset in the scene: of the part behind the colon of a name, of a value, of a text; of an open, of the tag's <
 *     bytes  7 to  9  length; of an open, 1 for an attribute unit
 *     bytes 10 to 12  offset of the namespace's URI in the scene, for class 255
 *     bytes 13 to 15  its length
 *
 * A SESSION is where a run over a scene is, in calcivorne_session_size() bytes: docs/SESSION.md says how to store one. Numbers have the least
 * significant byte first:
 *
 *     byte      0        version: 1
 *     byte      1        1 where the root has closed, else 0
 *     byte      2        1 where the end of a /> is awaited, else 0
 *     bytes     3 to  7  zero
 *     bytes     8 to 15  place in the scene
 *     bytes    16 to 23  units opened so far
 *     bytes    24 to 31  depth: open elements, 0 to 64
 *     bytes    32 to 39  open declarations, 0 to 64
 *     bytes    40 on     64 declarations, the outermost first, 16 bytes each: offset and length of the prefix (both 0 for the default), offset and
 *                        length of the URI; 4 bytes each
 *     bytes  1064 on     64 levels, the root first, 96 bytes each:
 *                  0     offset and length of the element's whole name; 4 bytes each
 *                  8     how many declarations its tag has; 4 bytes
 *                 12     its class; 4 bytes
 *                 16     offset and length of its URI, for class 255, else 0; 4 bytes each
 *                 24     how many strands it has, 1 to 16; 4 bytes
 *                 28     zero; 4 bytes
 *                 32     16 strands, 4 bytes each: bits 0 to 4 the mode, 5 and 6 the action (0 attach, 1 unwrap, 2 validate), 7 whether its unit
 *                        opened at this element, 8 whether it has a target, 9 to 24 the target unit (0 without one), 25 to 31 zero
 *     bytes  7208 on     of a longer slice: never read, never written
 *
 * What stands in declarations past their count, in levels past the depth and in strands past theirs is no part of the session, but its zero bytes
 * and the form of its strands are asked for there too: bytes that calcivorne_fresh, calcivorne_step, calcivorne_advance and calcivorne_commit wrote always
 * have them.
 *
 * AN OFFER is a session and a scene's length, in calcivorne_offer_size() bytes:
 *
 *     byte      0        version: 1
 *     bytes     1 to  7  zero
 *     bytes     8 to 15  the scene's length
 *     bytes    16 on     the session: its bytes as above
 *     bytes  7224 on     of a longer slice: never read, never written
 *
 * Bytes that hold no offer, for their version, their zero bytes or their session's, are an offer of nothing: commit answers 30 in 30's place of the order.
 */
#ifndef CALCIVORNE_H
#define CALCIVORNE_H

#include <stddef.h>

#ifdef __cplusplus
extern "C" {
#endif

/* A number of an answer or a span: 64 bits, as unsigned long has on Linux on x86-64. */
typedef unsigned long calcivorne_number;
typedef char calcivorne_number_has_64_bits[sizeof(calcivorne_number) == 8 ? 1 : -1];

/*
 * Judges a rule table: returns 0, 10, 11 or 12. Writes the four numbers of the answer.
 */
unsigned char calcivorne_judge(
    const unsigned char *table, size_t table_len,
    calcivorne_number answer[4]);

/*
 * Reads a whole scene: steps from a fresh session, until one does not give 0. Returns the number of that last step: 9 where the scene was read to
 * its end. Writes the records of all steps to out, joined, from its first byte on, and the four numbers of the answer. The bytes of out behind the
 * records keep their values. With another number than 9 the records of the steps before stand all the same, and answer[3] counts them.
 */
unsigned char calcivorne_run(
    const unsigned char *table, size_t table_len,
    const unsigned char *scene, size_t scene_len,
    unsigned char *out, size_t out_len,
    calcivorne_number answer[4]);

/*
 * How much a run will need: what calcivorne_run would give with an output that suffices. No output is lent and no record is written; the memory that
 * the call takes does not grow with the scene. Returns the run's number. Writes six numbers:
 *
 *     figures[0]  number    the run's; never 0, 20 or 25
 *     figures[1]  place     the run's
 *     figures[2]  records   how many the run writes
 *     figures[3]  units     how many it opens, attribute units counted; at most 65,536
 *     figures[4]  strands   the most of one level that was open at any time, those that write nothing counted; at most 16
 *     figures[5]  depth     the most elements open at once, at most 64; a /> opens one too
 *
 * In an out of 16 * figures[2] bytes, or more, calcivorne_run gives this very number, place and count of records; in fewer bytes it gives 25.
 *
 * The figures tell of the events up to where the run stops: the one that is refused counts for nothing. With 7 and 10 to 12 place and all four
 * behind it are 0; where no element was opened strands and depth are 0.
 *
 * For every table and scene figures[2] is at most 34 times the strands of each event, summed, plus 4 for each attribute unit and 2 for each attribute
 * in one; an attribute in two units counts twice. The strands of a start are those of the level that it opens, of a text or an end those of the
 * innermost level open before it; a /> is a start and an end.
 */
unsigned char calcivorne_forecast(
    const unsigned char *table, size_t table_len,
    const unsigned char *scene, size_t scene_len,
    calcivorne_number figures[6]);

/*
 * How many bytes a session takes. This is the only size that a host may use.
 */
calcivorne_number calcivorne_session_size(void);

/*
 * Writes a fresh session, at the start of a scene, to the first bytes of session, and returns 0. Where session_len is below
 * calcivorne_session_size() it writes nothing and returns 255.
 */
unsigned char calcivorne_fresh(
    unsigned char *session, size_t session_len);

/*
 * One step: reads one event of the scene from where the session is.
 *
 * With number 0 it writes the event's records to out, from its first byte on, and the session behind the event over the one that was there. The
 * bytes of out behind the records, and those of session behind the session, keep their values. With any other number session and out are as they
 * were. The four numbers of the answer are written but with 255, with which nothing is.
 *
 * The scene is always the whole scene so far, from its first byte on; a later call may give a longer one that begins with the same bytes. Number 1
 * says that the scene ends inside an event: append what comes next and call again with the same session. Number 9 says that the scene is whole as
 * it stands; more space, comments and instructions may still follow.
 */
unsigned char calcivorne_step(
    const unsigned char *table, size_t table_len,
    const unsigned char *scene, size_t scene_len,
    unsigned char *session, size_t session_len,
    unsigned char *out, size_t out_len,
    calcivorne_number answer[4]);

/*
 * Many steps in one call: steps from where the session is, until one does not give 0 or most steps were taken. Returns the number of the last step: 0
 * where most steps were taken. It is what as many calls of calcivorne_step would give, each with the rest of the output; but the table is judged, and
 * the session read, judged and written, once a call and not once an event.
 *
 * It writes the records of the steps that gave 0 to out, joined, from its first byte on; the session behind these steps over the one that was there,
 * whatever the number is; and the four numbers of the answer: number and place of the last step, how many gave 0, how many records they wrote. Where
 * none gave 0 session and out are as they were. The bytes of out behind the records, and those of session behind the session, keep their values. With
 * 255 nothing is written.
 *
 * The scene is the whole scene so far, as for calcivorne_step. In every case first use the answer[3] records; then, with the same session:
 *
 *       0  most steps were taken: call again for more
 *       1  the scene ends inside an event: append what comes next and call again
 *      25  the next event's records exceed what is left of out: call again, with out free from its first byte on. Where answer[2] is 0 this one event
 *          needs a longer out
 *       9  the scene is whole as it stands; more space, comments and instructions may still follow
 *
 * With any other number the step behind the answer[2] events is refused, and would be again.
 *
 * A most of (calcivorne_number)-1 sets no bound. With a most of 0 no step is taken and nothing is judged: number 0, and the session's place as it
 * stands. Only bytes that hold no session are then answered as by a step, with 10 to 12, 7 or 20.
 */
unsigned char calcivorne_advance(
    const unsigned char *table, size_t table_len,
    const unsigned char *scene, size_t scene_len,
    unsigned char *session, size_t session_len,
    calcivorne_number most,
    unsigned char *out, size_t out_len,
    calcivorne_number answer[4]);

/*
 * How many bytes an offer takes. This is the only size that a host may use.
 */
calcivorne_number calcivorne_offer_size(void);

/*
 * Ask: what one step would give with an output that suffices. Nothing is read past that, no output is lent, and the session is not written. Returns the
 * number. Writes the four numbers of the answer: number and place of that step, 0, and how many records it would write. With number 0 calcivorne_step in an
 * out of 16 * answer[3] bytes, or more, gives this very number, place and count of records, and in fewer bytes 25; with another number it gives that number
 * and place in every out.
 *
 * Writes an offer to the first bytes of offer, whatever the number is: the session's bytes as they were given, and the scene's length. The bytes of offer
 * behind it keep their values. Where session_len is below calcivorne_session_size() or offer_len below calcivorne_offer_size() it returns 255 and writes
 * nothing.
 */
unsigned char calcivorne_ask(
    const unsigned char *table, size_t table_len,
    const unsigned char *scene, size_t scene_len,
    const unsigned char *session, size_t session_len,
    unsigned char *offer, size_t offer_len,
    calcivorne_number answer[4]);

/*
 * Commit: one step on the table, the scene, the session and the output handed in, as calcivorne_step takes it, where the session and the scene's length
 * are the offer's. With the table and the scene that were asked about, and an out of 16 bytes for each record that ask counted, it gives what ask said.
 *
 * Where the session holds anything else than the offer's, or the scene has another length, it returns 30: place, events and records are 0, and session and
 * out are as they were. 30 stands behind 10 to 12, 7 and 20, which judge the session handed in and not the offer's, and before anything of the scene is
 * read. Sessions hold the same where all that the tables above have of them is the same; what stands past the counts does not matter. Other bytes in a
 * scene of the same length, and another table, are not noticed: commit is a step with what it was handed.
 *
 * An offer is not used up: the same offer may be committed again, and any other that a host has stored. With 255, where a slice is too short, nothing is
 * written.
 */
unsigned char calcivorne_commit(
    const unsigned char *offer, size_t offer_len,
    unsigned char *session, size_t session_len,
    const unsigned char *table, size_t table_len,
    const unsigned char *scene, size_t scene_len,
    unsigned char *out, size_t out_len,
    calcivorne_number answer[4]);

/*
 * Where the namespace URI of a record stands, by the record's class, URI offset and URI length. Returns 0. Writes three numbers:
 *
 *     span[0]  0: in the table, 1: in the scene
 *     span[1]  its offset there
 *     span[2]  its length
 *
 * For a class that the table lists it is the table's own bytes; for 255 the scene's at uri_offset, if uri_offset + uri_len is at most scene_len. For any other
 * class or span, and with a table that judge refuses, it is the empty part at the scene's start: 1, 0, 0.
 */
unsigned char calcivorne_uri(
    const unsigned char *table, size_t table_len,
    const unsigned char *scene, size_t scene_len,
    unsigned char record_class, calcivorne_number uri_offset, calcivorne_number uri_len,
    calcivorne_number span[3]);

#ifdef __cplusplus
}
#endif

#endif
