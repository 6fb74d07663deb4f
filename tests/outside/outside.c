/* outside: what the dispatcher delivers of a scene, beside what expat reports of it.

       outside [--well FILE] [--ill FILE] [SCENE..]

   Without scenes their names are read from standard input, one a line. Each scene is run under a table that validates every element section and
   attaches every attribute section: every element, attribute and text is delivered, along one strand. From what expat reports the same list is
   put together: units, places, names with their namespaces, values and texts, which a comment or a processing instruction ends. The two lists
   must be equal; where one of the two refuses the scene, for a reason that document 01 or the requests N1 and N4 give (see enum reason), what it
   has delivered must be the beginning of the other's.

   --well FILE   writes the names of the scenes that any parser of XML's fifth edition must accept: those that declare no encoding but UTF-8
   --ill FILE    writes the names of those that no namespace-aware one may, for a byte, an end tag or the scene's end

   Prints differences and counts. Ends with 1 on a difference, with 2 if a scene cannot be read. */
#include <expat.h>
#include <stdarg.h>
#include <stdio.h>
#include <stdlib.h>
#include <string.h>
#include <strings.h>
#include "calcivorne.h"

/* One mode, one schema; element sections: any, validate 0; attribute sections: any, attach. */
static const unsigned char table[] = {0, 1, 1, 2, 0x03, 0xFE, 0, 0, 0x07, 0xFC, 0, 0};
static const char xml_uri[] = "http://www.w3.org/XML/1998/namespace";

/* Stands in no scene that expat reads, so in no URI. */
#define SEPARATOR 1

enum { FINISHED = 9, ENDS = 1, BYTE = 2, PART = 3, END_NAME = 4, PREFIX = 5, TWICE = 6, LENGTH = 7, DEPTH = 21, BINDINGS = 22, UNITS = 24 };
enum { OPEN, START, ATTRIBUTE, VALUE, TEXT, END, CLOSE };
enum { NO_NAMESPACE = 0, XML = 254, UNLISTED = 255 };

static void die(const char *what, const char *why) {
    fprintf(stderr, "outside: %s%s\n", what, why);
    exit(2);
}

/* Bytes that grow. */
struct bytes { unsigned char *at; size_t length, room; };

static void need(struct bytes *b, size_t room) {
    if (b->room >= room) return;
    b->room = 2 * room;
    b->at = realloc(b->at, b->room);
    if (!b->at) die("", "no memory");
}

static void put(struct bytes *b, const void *from, size_t length) {
    need(b, b->length + length + 1);
    memcpy(b->at + b->length, from, length);
    b->length += length;
}

static void putf(struct bytes *b, const char *form, ...) {
    char line[128];
    va_list more;
    va_start(more, form);
    int length = vsnprintf(line, sizeof line, form, more);
    va_end(more);
    put(b, line, (size_t)length);
}

/* Bytes so that each list entry stays one line. */
static void put_shown(struct bytes *b, const unsigned char *from, size_t length) {
    for (size_t i = 0; i < length; i++)
        if (from[i] >= 32 && from[i] < 127 && from[i] != '\\') put(b, from + i, 1);
        else putf(b, "\\%02X", from[i]);
}

static struct bytes scene, out;
static const char *scene_name;

static int is_space(int c) { return c == 9 || c == 10 || c == 13 || c == 32; }

/* A byte of a name; from 80 on those of characters of some bytes. */
static int in_name(int c) {
    return (c >= 'a' && c <= 'z') || (c >= 'A' && c <= 'Z') || (c >= '0' && c <= '9') || c == '_' || c == '-' || c == '.' || c == ':' || c >= 0x80;
}

/* The byte at a place of the scene, or -1 past its end. */
static int byte_at(size_t at) { return at < scene.length ? scene.at[at] : -1; }

static int stands(size_t at, const char *word) {
    size_t length = strlen(word);
    return at + length <= scene.length && !memcmp(scene.at + at, word, length);
}

/* ---- What XML makes of bytes as they are written: references (XML 1.0, 4.6), line ends (2.11), white space in values (3.3.3). ---- */

struct reference { const char *written; char meant; };

static const struct reference references[] = {{"&lt;", '<'}, {"&gt;", '>'}, {"&amp;", '&'}, {"&quot;", '"'}, {"&apos;", '\''}};

/* The byte that is meant at a place, and how many bytes stand for it. */
static unsigned char meant(size_t at, size_t end, int value, size_t *taken) {
    unsigned char c = scene.at[at];
    *taken = c == 13 && at + 1 < end && scene.at[at + 1] == 10 ? 2 : 1;
    if (is_space(c)) return value ? 32 : c == 13 ? 10 : c;
    for (size_t i = 0; c == '&' && i < sizeof references / sizeof *references; i++)
        if (stands(at, references[i].written)) {
            *taken = strlen(references[i].written);
            return (unsigned char)references[i].meant;
        }
    return c;
}

static void put_meant(struct bytes *b, size_t at, size_t length, int value) {
    for (size_t end = at + length, taken; at < end; at += taken) {
        unsigned char c = meant(at, end, value, &taken);
        put_shown(b, &c, 1);
    }
}

/* ---- Our side: the records as a list. ---- */

struct record { unsigned long unit, kind, class, at, length, uri, uri_length; };

static unsigned long field(const unsigned char *at, int bytes) {
    unsigned long value = 0;
    for (int i = 0; i < bytes; i++) value = value * 256 + at[i];
    return value;
}

static struct record record(size_t number) {
    const unsigned char *r = out.at + 16 * number;
    struct record all = {field(r, 2), r[2], r[3], field(r + 4, 3), field(r + 7, 3), field(r + 10, 3), field(r + 13, 3)};
    return all;
}

static struct bytes ours;
static calcivorne_number answer[4];

/* White space other than 20 stands in the URI of a name: expat reports another URI, and units are not compared. */
static int odd_space;

static void put_unit(struct bytes *b, unsigned long unit) {
    if (odd_space) putf(b, "- ");
    else putf(b, "%lu ", unit);
}

/* A name's namespace by the library's own call, and the part. */
static void put_name(struct record r) {
    calcivorne_number span[3];
    calcivorne_uri(table, sizeof table, scene.at, scene.length, (unsigned char)r.class, r.uri, r.uri_length, span);
    if (r.class == UNLISTED && span[0] == 1 && span[1] == r.uri && span[2] == r.uri_length) {
        putf(&ours, "{");
        put_meant(&ours, r.uri, r.uri_length, 1);
        putf(&ours, "}");
    } else if (r.class == XML && r.uri == 0 && r.uri_length == 0 && span[2] == 0) {
        putf(&ours, "{%s}", xml_uri);
    } else if (r.class != NO_NAMESPACE || r.uri != 0 || r.uri_length != 0 || span[2] != 0) {
        putf(&ours, "(class %lu, URI %lu %lu)", r.class, r.uri, r.uri_length);
    }
    put_shown(&ours, scene.at + r.at, r.length);
}

/* A name's part stands behind a space or a colon; space and one = stand between it and the quote, which ends the value too. */
static int attribute_placed(struct record name, struct record value) {
    size_t at = name.at + name.length, equals = 0;
    if (name.at == 0 || value.at <= at || (!is_space(scene.at[name.at - 1]) && scene.at[name.at - 1] != ':')) return 0;
    for (; at < value.at - 1; at++)
        if (scene.at[at] == '=') equals++;
        else if (!is_space(scene.at[at])) return 0;
    int quote = scene.at[value.at - 1];
    return equals == 1 && (quote == '"' || quote == '\'') && byte_at(value.at + value.length) == quote;
}

static void put_value(struct record name, struct record value) {
    if (value.kind != VALUE || value.unit != name.unit || value.class || value.uri || value.uri_length) putf(&ours, " without a value");
    else if (!attribute_placed(name, value)) putf(&ours, " misplaced");
    putf(&ours, " = ");
    put_meant(&ours, value.at, value.length, 1);
}

/* Writes a record's line, for an attribute with the value's record; how many records that were. */
static size_t put_record(size_t number, size_t count) {
    static const char *words[] = {"open", "start", "attribute", "value", "text", "end", "close"};
    struct record r = record(number);
    if (r.at + r.length > scene.length || r.uri + r.uri_length > scene.length || r.kind > CLOSE) die(scene_name, ": a record's span is outside the scene, or of no kind");
    putf(&ours, "%s ", words[r.kind]);
    put_unit(&ours, r.unit);
    if (r.kind == START || r.kind == ATTRIBUTE || r.kind == END) {
        if (r.kind != ATTRIBUTE) putf(&ours, "at %lu ", r.at);
        put_name(r);
    } else {
        if (r.kind != CLOSE) putf(&ours, "at %lu ", r.at);
        if (r.kind == TEXT) put_meant(&ours, r.at, r.length, 0);
        if (r.kind == TEXT && byte_at(r.at + r.length) != '<') putf(&ours, "(no < behind it)");
        if (r.class || r.uri || r.uri_length || (r.kind != TEXT && r.length) || (r.kind == CLOSE && r.at)) putf(&ours, "(a field is not zero)");
    }
    size_t taken = 1;
    if (r.kind == ATTRIBUTE && number + 1 < count) {
        put_value(r, record(number + 1));
        taken = 2;
    }
    putf(&ours, "\n");
    return taken;
}

static int has_odd_space(struct record r) {
    for (size_t at = r.uri; at < r.uri + r.uri_length && at < scene.length; at++)
        if (scene.at[at] != 32 && is_space(scene.at[at])) return 1;
    return 0;
}

/* The list of what the dispatcher delivers. */
static void list_ours(void) {
    /* There are no more records than bytes: the four of an element take the four of <a/>, two of an attribute five, a text's one at least one. */
    need(&out, 16 * (scene.length + 1));
    calcivorne_run(table, sizeof table, scene.at, scene.length, out.at, out.room, answer);
    ours.length = 0;
    odd_space = 0;
    for (size_t i = 0; i < answer[3]; i++) odd_space |= has_odd_space(record(i));
    for (size_t i = 0, taken; i < answer[3]; i += taken) taken = put_record(i, answer[3]);
}

/* ---- Their side: the same list from what expat reports. ---- */

struct level { size_t name, name_length; unsigned long unit; int opened; size_t part; };

static struct bytes theirs, text, names;
static size_t text_at, text_end;
static struct level *levels;
static size_t depth, levels_room;
static unsigned long units;
static XML_Parser parser;
static enum XML_Error error;
static size_t error_at;
static unsigned long elements, attributes, texts, comments, instructions, declarations;

static size_t uri_length(const XML_Char *name) {
    const char *found = strchr(name, SEPARATOR);
    return found ? (size_t)(found - name) : 0;
}

static void put_their_name(const XML_Char *name) {
    size_t uri = uri_length(name);
    if (uri) {
        putf(&theirs, "{");
        put_shown(&theirs, (const unsigned char *)name, uri);
        putf(&theirs, "}");
        name += uri + 1;
    }
    put_shown(&theirs, (const unsigned char *)name, strlen(name));
}

/* Where the part of the name begins that stands at a place. */
static size_t part_at(size_t at) {
    size_t part = at;
    for (; in_name(byte_at(at)); at++)
        if (scene.at[at] == ':') part = at + 1;
    return part;
}

static void put_text(void) {
    if (!text.length) return;
    texts++;
    putf(&theirs, "text ");
    put_unit(&theirs, levels[depth - 1].unit);
    putf(&theirs, "at %zu ", text_at);
    put_shown(&theirs, text.at, text.length);
    putf(&theirs, "\n");
    text.length = 0;
}

/* A new level: in its parent's unit if its namespace is the parent's, else in a new one. */
static struct level *push(const XML_Char *name) {
    if (depth == levels_room) {
        levels_room = 2 * levels_room + 64;
        levels = realloc(levels, levels_room * sizeof *levels);
        if (!levels) die("", "no memory");
    }
    struct level *l = levels + depth, *outer = depth ? l - 1 : NULL;
    l->name = names.length;
    l->name_length = uri_length(name);
    put(&names, name, l->name_length);
    l->opened = !outer || outer->name_length != l->name_length || memcmp(names.at + outer->name, name, l->name_length);
    l->unit = l->opened ? units++ : outer->unit;
    depth++;
    return l;
}

static void XMLCALL their_start(void *user, const XML_Char *name, const XML_Char **more) {
    (void)user;
    put_text();
    elements++;
    struct level *l = push(name);
    size_t at = (size_t)XML_GetCurrentByteIndex(parser);
    l->part = part_at(at + 1);
    if (l->opened) {
        putf(&theirs, "open ");
        put_unit(&theirs, l->unit);
        putf(&theirs, "at %zu \n", at);
    }
    putf(&theirs, "start ");
    put_unit(&theirs, l->unit);
    putf(&theirs, "at %zu ", l->part);
    put_their_name(name);
    putf(&theirs, "\n");
    for (; *more; more += 2, attributes++) {
        putf(&theirs, "attribute ");
        put_unit(&theirs, l->unit);
        put_their_name(more[0]);
        putf(&theirs, " = ");
        put_shown(&theirs, (const unsigned char *)more[1], strlen(more[1]));
        putf(&theirs, "\n");
    }
}

static void XMLCALL their_end(void *user, const XML_Char *name) {
    (void)user;
    put_text();
    struct level *l = levels + --depth;
    /* The end of a /> has no bytes of its own. */
    size_t part = XML_GetCurrentByteCount(parser) ? part_at((size_t)XML_GetCurrentByteIndex(parser) + 2) : l->part;
    putf(&theirs, "end ");
    put_unit(&theirs, l->unit);
    putf(&theirs, "at %zu ", part);
    put_their_name(name);
    putf(&theirs, "\n");
    if (l->opened) {
        putf(&theirs, "close ");
        put_unit(&theirs, l->unit);
        putf(&theirs, "\n");
    }
    names.length = l->name;
}

static void XMLCALL their_text(void *user, const XML_Char *at, int length) {
    (void)user;
    if (!text.length) text_at = (size_t)XML_GetCurrentByteIndex(parser);
    text_end = (size_t)XML_GetCurrentByteIndex(parser) + (size_t)XML_GetCurrentByteCount(parser);
    put(&text, at, (size_t)length);
}

/* A text ends where one of these begins. */
static void XMLCALL their_comment(void *user, const XML_Char *content) {
    (void)user;
    (void)content;
    put_text();
    comments++;
}

static void XMLCALL their_instruction(void *user, const XML_Char *target, const XML_Char *content) {
    (void)user;
    (void)target;
    (void)content;
    put_text();
    instructions++;
}

static void XMLCALL their_declaration(void *user, const XML_Char *version, const XML_Char *encoding, int standalone) {
    (void)user;
    (void)version;
    (void)encoding;
    (void)standalone;
    declarations++;
}

/* The dispatcher refuses a CDATA section, behind the text before it. */
static void XMLCALL their_cdata(void *user) {
    (void)user;
    put_text();
}

/* The list of what expat reports; odd_space is to be known. */
static void list_theirs(void) {
    theirs.length = text.length = names.length = depth = units = 0;
    /* Behind a declaration the encoding is for expat to find. */
    parser = XML_ParserCreateNS(stands(0, "<?xml") ? NULL : "UTF-8", SEPARATOR);
    if (!parser) die("", "no memory");
    XML_SetElementHandler(parser, their_start, their_end);
    XML_SetCharacterDataHandler(parser, their_text);
    XML_SetCommentHandler(parser, their_comment);
    XML_SetProcessingInstructionHandler(parser, their_instruction);
    XML_SetXmlDeclHandler(parser, their_declaration);
    XML_SetStartCdataSectionHandler(parser, their_cdata);
    error = XML_ERROR_NONE;
    if (XML_Parse(parser, (const char *)scene.at, (int)scene.length, 1) != XML_STATUS_OK) {
        error = XML_GetErrorCode(parser);
        /* Of an empty scene it is -1. */
        error_at = scene.length ? (size_t)XML_GetErrorByteIndex(parser) : 0;
        /* A text is complete once the next < is read, whatever comes of that. */
        if (text.length && byte_at(text_end) == '<') put_text();
    }
    XML_ParserFree(parser);
}

/* ---- Where document 01 differs from XML 1.0 and Namespaces in XML 1.0. ---- */

enum reason {
    NONE,
    /* Refused by document 01 alone. */
    LIMIT,          /* 3, 7, 21, 22, 24: parts of 64 bytes, 16 attributes, 64 levels, .. ; one strand and ample output never give 23 and 25 */
    MARKUP,         /* CDATA and DTDs are not in: 2 behind the ! */
    VERSION,        /* a version is 1. and digits (production 26): 2 in it. expat takes any of its bytes, so that this is for document 01 alone here */
    NUMERIC,        /* numeric references are not in: 2 at the # */
    ORDER_MARK,     /* a byte order mark is no space: 2 at the scene's first byte */
    AND_DECLARED,   /* & in a declaration: 5 */
    XML_DECLARED,   /* xml declared: 5, though Namespaces in XML lets it be declared as what it is */
    /* Refused by XML alone. */
    ENCODING,       /* any EncName will do and is compared with nothing; expat refuses one that it does not know, or that the bytes are not in */
    OLDER_NAMES,    /* names are the fifth edition's; expat has the sets of an older one, and in names no character of four bytes */
    NORMALISED,     /* no normalising of values: URIs that differ in white space only differ, for XML they may be one and an attribute stand twice */
    REASONS
};

static const char *reason_words[] = {
    "", "a limit of document 01", "CDATA or DTD", "version other than 1. and digits", "numeric reference", "byte order mark",
    "& in a declaration", "xml declared as itself", "encoding unknown or not the scene's", "name character of the fifth edition",
    "URIs equal but for white space",
};

/* The next attribute of a whole tag: false behind the last one. */
struct written { size_t name, name_length, value, value_length; };

static int next_attribute(size_t *at, struct written *w) {
    while (is_space(byte_at(*at))) ++*at;
    w->name = *at;
    while (in_name(byte_at(*at))) ++*at;
    w->name_length = *at - w->name;
    if (!w->name_length) return 0;
    while (is_space(byte_at(*at)) || byte_at(*at) == '=') ++*at;
    int quote = byte_at(*at);
    w->value = ++*at;
    while (byte_at(*at) >= 0 && byte_at(*at) != quote) ++*at;
    w->value_length = *at - w->value;
    ++*at;
    return 1;
}

/* Why 5 was given at a tag, if it is for more than Namespaces in XML asks. */
static enum reason declared(size_t tag) {
    struct written w;
    size_t at = tag + 1;
    while (in_name(byte_at(at))) at++;
    while (next_attribute(&at, &w)) {
        if (!stands(w.name, "xmlns") || (w.name_length > 5 && scene.at[w.name + 5] != ':')) continue;
        if (memchr(scene.at + w.value, '&', w.value_length)) return AND_DECLARED;
        if (w.name_length == 9 && stands(w.name, "xmlns:xml") && w.value_length == strlen(xml_uri) && stands(w.value, xml_uri)) return XML_DECLARED;
    }
    return NONE;
}

/* Whether a place is in the version of the XML declaration, the quote behind it included. */
static int in_version(size_t place) {
    size_t at = 5;
    if (!stands(0, "<?xml")) return 0;
    while (byte_at(at) >= 0 && byte_at(at) != '"' && byte_at(at) != '\'') at++;
    int quote = byte_at(at);
    for (at++; at < place && byte_at(at) >= 0 && byte_at(at) != quote; at++) continue;
    return at == place;
}

/* Why the dispatcher may refuse what expat accepts. */
static enum reason our_reason(void) {
    calcivorne_number number = answer[0];
    size_t place = answer[1];
    if (number == PART || number == LENGTH || number == DEPTH || number == BINDINGS || number == UNITS) return LIMIT;
    if (number == PREFIX) return declared(place);
    if (number != BYTE) return NONE;
    int before = place ? byte_at(place - 1) : -1;
    if (place > 1 && stands(place - 2, "<!") && (stands(place, "DOCTYPE") || stands(place, "[CDATA["))) return MARKUP;
    if (in_version(place)) return VERSION;
    if (before == '&' && byte_at(place) == '#') return NUMERIC;
    return place == 0 && stands(0, "\xEF\xBB\xBF") ? ORDER_MARK : NONE;
}

/* The character that stands at a place in UTF-8, if it is one of XML's of more bytes than one; else 0. */
static unsigned long character(size_t at) {
    static const unsigned long least[] = {0, 0, 0x80, 0x800, 0x10000};
    int c = byte_at(at);
    size_t length = c >= 0xC0 && c < 0xE0 ? 2 : c >= 0xE0 && c < 0xF0 ? 3 : c >= 0xF0 && c < 0xF8 ? 4 : 0;
    if (length == 0) return 0;
    unsigned long point = (unsigned long)c & (0x7Fu >> length);
    for (size_t i = 1; i < length; i++) {
        int more = byte_at(at + i);
        if (more < 0x80 || more > 0xBF) return 0;
        point = point << 6 | (unsigned long)(more & 0x3F);
    }
    if (point < least[length] || point > 0x10FFFF) return 0;
    return (point >= 0xD800 && point < 0xE000) || point == 0xFFFE || point == 0xFFFF ? 0 : point;
}

/* Productions 4 and 4a of XML 1.0, fifth edition, from 80 on. */
static int in_fifth_edition(unsigned long point) {
    static const unsigned long rows[][2] = {{0xB7, 0xB7}, {0xC0, 0xD6}, {0xD8, 0xF6}, {0xF8, 0x37D}, {0x37F, 0x1FFF}, {0x200C, 0x200D}, {0x203F, 0x2040},
        {0x2070, 0x218F}, {0x2C00, 0x2FEF}, {0x3001, 0xD7FF}, {0xF900, 0xFDCF}, {0xFDF0, 0xFFFD}, {0x10000, 0xEFFFF}};
    for (size_t i = 0; i < sizeof rows / sizeof *rows; i++)
        if (point >= rows[i][0] && point <= rows[i][1]) return 1;
    return 0;
}

/* Why expat may refuse what the dispatcher accepts: at the place of its error. */
static enum reason their_reason(void) {
    if (error == XML_ERROR_NONE) return NONE;
    if (error == XML_ERROR_UNKNOWN_ENCODING || error == XML_ERROR_INCORRECT_ENCODING) return ENCODING;
    if (error == XML_ERROR_INVALID_TOKEN && in_fifth_edition(character(error_at))) return OLDER_NAMES;
    if (error == XML_ERROR_DUPLICATE_ATTRIBUTE && odd_space) return NORMALISED;
    return NONE;
}

/* ---- The two compared. ---- */

enum relation { EQUAL, OURS_SHORTER, THEIRS_SHORTER, UNLIKE };

/* How the lists stand to each other, and the line where they part. */
static enum relation relation(size_t *line) {
    size_t least = ours.length < theirs.length ? ours.length : theirs.length, at = *line = 0;
    for (; at < least && ours.at[at] == theirs.at[at]; at++)
        if (ours.at[at] == '\n') *line = at + 1;
    if (at < least) return UNLIKE;
    return ours.length < theirs.length ? OURS_SHORTER : ours.length > theirs.length ? THEIRS_SHORTER : EQUAL;
}

/* Whether expat's error is what the number says. Of a byte that cannot stand there it has many. */
static int same_kind(void) {
    switch (answer[0]) {
    case ENDS: return error == XML_ERROR_NO_ELEMENTS || error == XML_ERROR_UNCLOSED_TOKEN || error == XML_ERROR_PARTIAL_CHAR;
    case END_NAME: return error == XML_ERROR_TAG_MISMATCH;
    case TWICE: return error == XML_ERROR_DUPLICATE_ATTRIBUTE;
    case PREFIX:
        return error == XML_ERROR_UNBOUND_PREFIX || error == XML_ERROR_UNDECLARING_PREFIX || error == XML_ERROR_RESERVED_PREFIX_XML
            || error == XML_ERROR_RESERVED_PREFIX_XMLNS || error == XML_ERROR_RESERVED_NAMESPACE_URI || error == XML_ERROR_DUPLICATE_ATTRIBUTE;
    default: return answer[0] == BYTE;
    }
}

static unsigned long scenes, accepted, refused, differences, excused[REASONS], by_number[256];
static FILE *well, *ill;

static void show_line(const char *who, const struct bytes *list, size_t at) {
    const unsigned char *end = at < list->length ? memchr(list->at + at, '\n', list->length - at) : NULL;
    printf("    %s: %.*s\n", who, end ? (int)(end - (list->at + at)) : 0, end ? (const char *)list->at + at : "");
}

static void difference(size_t line) {
    differences++;
    printf("difference: %s: %lu at %lu; expat: ", scene_name, answer[0], answer[1]);
    if (error == XML_ERROR_NONE) printf("accepted\n");
    else printf("%s at %zu\n", XML_ErrorString(error), error_at);
    show_line("ours", &ours, line);
    show_line("expat", &theirs, line);
}

static void excuse(enum reason why, size_t line) {
    if (why == NONE) difference(line);
    else excused[why]++;
}

/* Bytes that libxml2 takes: behind the root a byte 00, which is no character of XML's, as the end; and standalone without a space before it, where the
   encoding is UTF-8. */
static int taken_by_libxml2(size_t place) {
    return byte_at(place) == 0 || (stands(0, "<?xml") && stands(place, "s") && (byte_at(place - 1) == '"' || byte_at(place - 1) == '\''));
}

static int for_ill(enum reason our) {
    return ill && !our && (answer[0] == ENDS || answer[0] == END_NAME || (answer[0] == BYTE && !taken_by_libxml2(answer[1])));
}

static void both_refuse(size_t line, enum reason our, enum reason their) {
    if (!same_kind()) {
        excuse(our ? our : their, line);
        return;
    }
    refused++;
    if (for_ill(our)) fprintf(ill, "%s\n", scene_name);
}

/* The encoding that an accepted scene declares is UTF-8, or none. */
static int declares_utf8(void) {
    size_t at = 5;
    if (!stands(0, "<?xml") || in_name(byte_at(at))) return 1;
    while (!stands(at, "?>") && !stands(at, "encoding")) at++;
    if (stands(at, "?>")) return 1;
    while (byte_at(at) != '"' && byte_at(at) != '\'') at++;
    return !strncasecmp((const char *)scene.at + at + 1, "utf-8", 5) && byte_at(at + 6) == byte_at(at);
}

static void for_well(void) {
    if (well && declares_utf8()) fprintf(well, "%s\n", scene_name);
}

static void both_accept(void) {
    accepted++;
    for_well();
}

/* Refused by expat, and not by the dispatcher so far; a parser that has the fifth edition's names must accept it too. */
static void they_refuse(size_t line, enum reason their) {
    excuse(their, line);
    if (answer[0] == FINISHED && their == OLDER_NAMES && !odd_space) for_well();
}

static void compare(void) {
    list_ours();
    list_theirs();
    scenes++;
    by_number[answer[0] & 255]++;
    size_t line;
    int we = answer[0] == FINISHED, they = error == XML_ERROR_NONE;
    enum reason our = our_reason(), their = their_reason();
    switch (relation(&line)) {
    case EQUAL:
        if (we && they) both_accept();
        else if (!we && !they) both_refuse(line, our, their);
        else if (we) they_refuse(line, their);
        else excuse(our, line);
        break;
    case OURS_SHORTER: excuse(our, line); break;
    case THEIRS_SHORTER: they_refuse(line, their); break;
    default: difference(line);
    }
}

static void load(const char *name) {
    FILE *file = fopen(name, "rb");
    if (!file) die(name, ": cannot be read");
    scene_name = name;
    scene.length = 0;
    for (size_t got = 1; got;) {
        need(&scene, scene.length + 65536);
        got = fread(scene.at + scene.length, 1, 65536, file);
        scene.length += got;
    }
    if (ferror(file)) die(name, ": cannot be read");
    fclose(file);
}

static void sum_up(void) {
    printf("outside: %lu scenes: accepted by both %lu, refused by both %lu, differences %lu\n", scenes, accepted, refused, differences);
    printf("outside: expat reported %lu elements, %lu attributes, %lu texts, ", elements, attributes, texts);
    printf("%lu comments, %lu processing instructions, %lu declarations\n", comments, instructions, declarations);
    printf("outside: by number:");
    for (int i = 0; i < 256; i++)
        if (by_number[i]) printf(" %d: %lu", i, by_number[i]);
    printf("\n");
    for (int i = 1; i < REASONS; i++)
        printf("outside: refused %s: %s: %lu\n", i < ENCODING ? "by document 01 alone" : "by XML alone", reason_words[i], excused[i]);
}

static FILE *list_file(const char *name) {
    FILE *file = fopen(name, "w");
    if (!file) die(name, ": cannot be written");
    return file;
}

int main(int count, char **words) {
    char line[4096];
    int i = 1;
    for (; i + 1 < count && words[i][0] == '-'; i += 2) {
        if (!strcmp(words[i], "--well")) well = list_file(words[i + 1]);
        else if (!strcmp(words[i], "--ill")) ill = list_file(words[i + 1]);
        else die(words[i], ": not an option");
    }
    if (i < count) {
        for (; i < count; i++) {
            load(words[i]);
            compare();
        }
    } else {
        while (fgets(line, sizeof line, stdin)) {
            line[strcspn(line, "\n")] = 0;
            load(line);
            compare();
        }
    }
    sum_up();
    if ((well && fclose(well)) || (ill && fclose(ill))) die("", "a list cannot be written");
    return differences ? 1 : 0;
}
