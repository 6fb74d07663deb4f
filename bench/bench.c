/* bench: how fast scenes are dispatched, beside other readers of the same bytes, in one run.

       bench table LABEL SCENE RULES     every contender on one scene, with peak memory
       bench lines WORD (LABEL SCENE RULES)..  run beside expat on each of these scenes, a line each; the scenes take turns too
       bench once WHO SCENE RULES [ROOM] one pass of one contender: its peak memory, events, records, calls, and a sum over the records' bytes; WHO is run,
                                         forecast (which counts no events), expat, libxml2, advance64, pieces64, advance4, pieces4, step, memchr, load, or ask
                                         or commit (the same: each event asked about and committed)

   Before the command: -r ROUNDS (5), -t SECONDS of a contender in a round (0.25), -m (no memory), -p SECONDS after which stepping stops (8 times -t),
   -n CALLS after which it stops.
   Contenders take turns in each round; the best round of each counts ('by rounds': the median of the ratios within a round).
   Time is processor time of this process.
   Events are the scene's own (starts, texts, ends) for all, and a comment or an instruction ends a text; records are those that run writes. MB is 1,000,000 bytes.
   FORECAST and OFFERS are defined where the libraries for them are linked too.
   If contenders disagree about the scene the program says so and ends with 1. No time decides anything. */
#define _GNU_SOURCE
#include <expat.h>
#include <libxml/parser.h>
#include <libxml/parserInternals.h>
#include <stdint.h>
#include <stdio.h>
#include <stdlib.h>
#include <string.h>
#include <sys/wait.h>
#include <time.h>
#include <unistd.h>

#include "calcivorne.h"

/* A library from before this call is timed without it. */
#pragma weak calcivorne_advance

static void die(const char *why, const char *what) {
    fprintf(stderr, "bench: %s%s\n", why, what);
    exit(1);
}

static double now(void) {
    struct timespec t;
    clock_gettime(CLOCK_PROCESS_CPUTIME_ID, &t);
    return (double)t.tv_sec + (double)t.tv_nsec * 1e-9;
}

/* What is dispatched, and the output. */
struct bytes { uint8_t *at; size_t length; };

static struct bytes scene, rules, out;    /* of the pass at hand */
static uint8_t room[65536];               /* what a step and an advance write to */

static struct bytes load(const char *path) {
    FILE *f = fopen(path, "rb");
    if (!f) die("cannot read ", path);
    struct bytes b = { 0, 0 };
    fseek(f, 0, SEEK_END);
    b.length = (size_t)ftell(f);
    rewind(f);
    b.at = malloc(b.length + 1);
    if (!b.at || fread(b.at, 1, b.length, f) != b.length) die("cannot read ", path);
    fclose(f);
    return b;
}

/* What a pass saw. done is how many bytes it went over: fewer than the scene's where it was stopped. */
struct seen { uint64_t events, records, calls, sum; size_t done; };

static double patience;       /* seconds after which stepping stops; 0 never */
static uint64_t most_calls;   /* calls after which it stops; 0 never */
static int summing;           /* whether the pass at hand sums the records' bytes, which tells of their order too */

/* One more call of a pass, whose records stand at an output's first byte. */
static void tally(struct seen *s, const uint64_t *answer, const uint8_t *records) {
    s->calls++;
    s->events += answer[2];
    s->records += answer[3];
    s->done = (size_t)answer[1];
    for (uint64_t k = 0; summing && k < 16 * answer[3]; k++) s->sum = (s->sum ^ records[k]) * 0x100000001B3u;
}

static void ends_with_9(const char *who, const uint64_t *answer) {
    if (answer[0] == 9) return;
    fprintf(stderr, "bench: %s gives %u at %llu\n", who, (unsigned)answer[0], (unsigned long long)answer[1]);
    exit(1);
}

static struct seen pass_run(void) {
    uint64_t answer[4];
    struct seen s = { 0, 0, 0, 0, 0 };
    calcivorne_run(rules.at, rules.length, scene.at, scene.length, out.at, out.length, answer);
    ends_with_9("run", answer);
    tally(&s, answer, out.at);
    return s;
}

static uint8_t *fresh(size_t length) {
    uint8_t *session = malloc(length);
    if (!session || calcivorne_fresh(session, length)) die("no session", "");
    return session;
}

/* An event at a time, by a call that takes one. */
static struct seen event_by_event(void (*take)(uint8_t *session, size_t length, uint64_t *answer)) {
    size_t length = (size_t)calcivorne_session_size();
    uint8_t *session = fresh(length);
    uint64_t answer[4] = { 0, 0, 0, 0 };
    struct seen s = { 0, 0, 0, 0, 0 };
    double begin = now();
    while (!answer[0]) {
        if (s.calls && s.calls == most_calls) break;
        if (s.calls % 256 == 255 && patience > 0 && now() - begin > patience) break;
        take(session, length, answer);
        tally(&s, answer, room);
    }
    if (answer[0]) ends_with_9("a step", answer);
    free(session);
    return s;
}

static void take_step(uint8_t *session, size_t length, uint64_t *answer) {
    calcivorne_step(rules.at, rules.length, scene.at, scene.length, session, length, room, sizeof room, answer);
}

static struct seen pass_step(void) {
    return event_by_event(take_step);
}

#ifdef OFFERS
/* Asked first, then committed: two calls an event. */
static void take_offered(uint8_t *session, size_t length, uint64_t *answer) {
    static uint8_t offer[65536];
    if (calcivorne_offer_size() > sizeof offer) die("no room for an offer", "");
    calcivorne_ask(rules.at, rules.length, scene.at, scene.length, session, length, offer, sizeof offer, answer);
    calcivorne_commit(offer, sizeof offer, session, length, rules.at, rules.length, scene.at, scene.length, room, sizeof room, answer);
}

static struct seen pass_offered(void) {
    return event_by_event(take_offered);
}
#else
static struct seen pass_offered(void) {
    return (struct seen){ 0, 0, 0, 0, 0 };
}
#endif

/* The scene grows by a piece at a time; an output that is full is taken away. */
static struct seen advance_by(size_t piece) {
    size_t length = (size_t)calcivorne_session_size(), come = 0;
    uint8_t *session = fresh(length);
    uint64_t answer[4];
    struct seen s = { 0, 0, 0, 0, 0 };
    do {
        come = scene.length - come < piece ? scene.length : come + piece;
        do {
            calcivorne_advance(rules.at, rules.length, scene.at, come, session, length, UINT64_MAX, room, sizeof room, answer);
            tally(&s, answer, room);
        } while (answer[0] == 25 && answer[2]);
    } while ((answer[0] == 1 || answer[0] == 9) && come < scene.length);
    ends_with_9("an advance", answer);
    free(session);
    return s;
}

static struct seen pass_advance64(void) {
    return advance_by(65536);
}

static struct seen pass_advance4(void) {
    return advance_by(4096);
}

/* Both libraries may hand a text over in pieces; a text is counted once. It ends at a comment or an instruction, which are no events. */
struct count { uint64_t starts, ends, texts, attributes; int in_text; };

static struct seen seen_by(const struct count *c) {
    return (struct seen){ c->starts + c->ends + c->texts, 0, 0, 0, scene.length };
}

static void XMLCALL expat_start(void *user, const XML_Char *name, const XML_Char **more) {
    struct count *c = user;
    (void)name;
    c->starts++;
    for (; *more; more += 2) c->attributes++;
    c->in_text = 0;
}

static void XMLCALL expat_end(void *user, const XML_Char *name) {
    struct count *c = user;
    (void)name;
    c->ends++;
    c->in_text = 0;
}

static void XMLCALL expat_text(void *user, const XML_Char *at, int length) {
    struct count *c = user;
    (void)at, (void)length;
    c->texts += !c->in_text;
    c->in_text = 1;
}

static void XMLCALL expat_comment(void *user, const XML_Char *at) {
    struct count *c = user;
    (void)at;
    c->in_text = 0;
}

static void XMLCALL expat_instruction(void *user, const XML_Char *target, const XML_Char *at) {
    struct count *c = user;
    (void)target, (void)at;
    c->in_text = 0;
}

static struct seen expat_by(size_t most) {
    struct count c = { 0, 0, 0, 0, 0 };
    XML_Parser p = XML_ParserCreateNS(0, '|');
    XML_SetUserData(p, &c);
    XML_SetElementHandler(p, expat_start, expat_end);
    XML_SetCharacterDataHandler(p, expat_text);
    XML_SetCommentHandler(p, expat_comment);
    XML_SetProcessingInstructionHandler(p, expat_instruction);
    for (size_t at = 0, piece; at < scene.length; at += piece) {
        piece = scene.length - at < most ? scene.length - at : most;
        if (XML_Parse(p, (const char *)scene.at + at, (int)piece, at + piece == scene.length) != XML_STATUS_OK) die("expat: ", XML_ErrorString(XML_GetErrorCode(p)));
    }
    XML_ParserFree(p);
    return seen_by(&c);
}

/* The whole scene in one call, as run has it: faster than in pieces, and expat makes a copy of it. */
static struct seen pass_expat(void) {
    return expat_by(scene.length);
}

/* In the pieces of an advance; and so it shows how much memory expat needs of its own. */
static struct seen pass_pieces64(void) {
    return expat_by(65536);
}

static struct seen pass_pieces4(void) {
    return expat_by(4096);
}

static void sax_start(void *user, const xmlChar *name, const xmlChar *prefix, const xmlChar *uri, int spaces, const xmlChar **space, int attributes, int defaulted, const xmlChar **attribute) {
    struct count *c = user;
    (void)name, (void)prefix, (void)uri, (void)spaces, (void)space, (void)defaulted, (void)attribute;
    c->starts++;
    c->attributes += (uint64_t)attributes;
    c->in_text = 0;
}

static void sax_end(void *user, const xmlChar *name, const xmlChar *prefix, const xmlChar *uri) {
    struct count *c = user;
    (void)name, (void)prefix, (void)uri;
    c->ends++;
    c->in_text = 0;
}

static void sax_text(void *user, const xmlChar *at, int length) {
    struct count *c = user;
    (void)at, (void)length;
    c->texts += !c->in_text;
    c->in_text = 1;
}

static void sax_comment(void *user, const xmlChar *at) {
    struct count *c = user;
    (void)at;
    c->in_text = 0;
}

static void sax_instruction(void *user, const xmlChar *target, const xmlChar *at) {
    struct count *c = user;
    (void)target, (void)at;
    c->in_text = 0;
}

static struct seen pass_libxml2(void) {
    struct count c = { 0, 0, 0, 0, 0 };
    xmlSAXHandler sax;
    memset(&sax, 0, sizeof sax);
    sax.initialized = XML_SAX2_MAGIC;
    sax.startElementNs = sax_start;
    sax.endElementNs = sax_end;
    sax.characters = sax_text;
    sax.ignorableWhitespace = sax_text;
    sax.comment = sax_comment;
    sax.processingInstruction = sax_instruction;
    xmlParserCtxtPtr p = xmlCreateMemoryParserCtxt((const char *)scene.at, (int)scene.length);
    if (!p) die("libxml2: no parser", "");
    *p->sax = sax;
    p->userData = &c;
    xmlCtxtUseOptions(p, XML_PARSE_NONET | XML_PARSE_HUGE);
    xmlParseDocument(p);
    if (!p->wellFormed || !p->nsWellFormed) die("libxml2: the scene is refused", "");
    xmlFreeParserCtxt(p);
    return seen_by(&c);
}

#ifdef FORECAST
/* What run will write, without an output. It tells of no events. */
static struct seen pass_forecast(void) {
    uint64_t figures[6];
    calcivorne_forecast(rules.at, rules.length, scene.at, scene.length, figures);
    return (struct seen){ 0, figures[2], 1, 0, scene.length };
}
#else
static struct seen pass_forecast(void) {
    return (struct seen){ 0, 0, 0, 0, 0 };
}
#endif

static struct seen pass_memchr(void) {
    struct seen s = { 0, 0, 0, 0, scene.length };
    const uint8_t *at = scene.at, *end = at + scene.length;
    while ((at = memchr(at, '<', (size_t)(end - at)))) s.events++, at++;
    return s;
}

static struct seen pass_load(void) {
    return (struct seen){ 0, 0, 0, 0, 0 };
}

/* Neighbours take turns next to each other: each of ours stands before the one that it is held against. */
enum { RUN, FORECASTING, EXPAT, LIBXML2, ADVANCE64, PIECES64, ADVANCE4, PIECES4, STEP, MEMCHR, CONTENDERS, LOAD = CONTENDERS, ASK, COMMIT };

static const struct { const char *word, *title; struct seen (*pass)(void); int writes; } contender[] = {
    { "run", "`run`", pass_run, 1 },
    { "forecast", "`forecast`, no output", pass_forecast, 0 },
    { "expat", "expat, namespaces", pass_expat, 0 },
    { "libxml2", "libxml2 SAX2, namespaces", pass_libxml2, 0 },
    { "advance64", "`advance`, in pieces of 64 KB", pass_advance64, 1 },
    { "pieces64", "expat, in pieces of 64 KB", pass_pieces64, 0 },
    { "advance4", "`advance`, in pieces of 4 KB", pass_advance4, 1 },
    { "pieces4", "expat, in pieces of 4 KB", pass_pieces4, 0 },
    { "step", "`step`, one call an event", pass_step, 1 },
    { "memchr", "memchr for `<`", pass_memchr, 0 },
    { "load", "the scene loaded, nothing done", pass_load, 0 },
    { "ask", "`ask`, before each `commit`", pass_offered, 1 },
    { "commit", "`commit`, one call an event", pass_offered, 1 },
};

static int takes_part(int who) {
#ifndef FORECAST
    if (who == FORECASTING) return 0;
#endif
#ifndef OFFERS
    if (who == ASK || who == COMMIT) return 0;
#endif
    return calcivorne_advance || (who != ADVANCE64 && who != ADVANCE4);
}

/* Grows the output until run ends with another number than 25. */
static void make_room(void) {
    uint64_t answer[4];
    for (out.length = 2 * scene.length + sizeof room;; out.length *= 2) {
        out.at = malloc(out.length);
        if (!out.at) die("no memory for the output", "");
        if (calcivorne_run(rules.at, rules.length, scene.at, scene.length, out.at, out.length, answer) != 25) return;
        free(out.at);
    }
}

static long peak_kb(void) {
    char line[256];
    long kb = 0;
    FILE *f = fopen("/proc/self/status", "r");
    while (f && fgets(line, sizeof line, f))
        if (sscanf(line, "VmHWM: %ld", &kb) == 1) break;
    if (f) fclose(f);
    return kb;
}

/* Peak memory of one pass in a process of its own, in KB. */
static long peak_of(int who, const char *scene_path, const char *rules_path) {
    char length[32], patient[32], kb[128] = "";
    int ends[2];
    snprintf(length, sizeof length, "%zu", out.length);
    snprintf(patient, sizeof patient, "%g", patience);
    if (pipe(ends)) return 0;
    pid_t child = fork();
    if (child < 0) return 0;
    if (!child) {
        dup2(ends[1], 1);
        close(ends[0]);
        execl("/proc/self/exe", "bench", "-p", patient, "once", contender[who].word, scene_path, rules_path, length, (char *)0);
        _exit(1);
    }
    close(ends[1]);
    ssize_t n = read(ends[0], kb, sizeof kb - 1);
    close(ends[0]);
    waitpid(child, 0, 0);
    return n > 0 ? atol(kb) : 0;
}

/* Seconds for a whole scene, of each round. */
enum { MOST_ROUNDS = 64 };

struct times { double round[MOST_ROUNDS], best, median, ratio; struct seen seen; };

static int rounds = 5;
static double share = 0.25;

static int by_size(const void *a, const void *b) {
    double x = *(const double *)a, y = *(const double *)b;
    return (x > y) - (x < y);
}

static double middle(const double *of) {
    double sorted[MOST_ROUNDS];
    memcpy(sorted, of, sizeof sorted);
    qsort(sorted, (size_t)rounds, sizeof *sorted, by_size);
    return rounds % 2 ? sorted[rounds / 2] : (sorted[rounds / 2 - 1] + sorted[rounds / 2]) / 2;
}

/* The middle one of the ratios within a round. */
static double by_rounds(const struct times *t, const struct times *base) {
    double ratios[MOST_ROUNDS] = { 0 };
    for (int r = 0; r < rounds; r++) ratios[r] = base->round[r] / t->round[r];
    return middle(ratios);
}

/* The best and the middle round, and the ratio to expat by rounds. */
static void sum_up(struct times *t, const struct times *expat) {
    t->best = t->round[0];
    for (int r = 0; r < rounds; r++)
        if (t->round[r] < t->best) t->best = t->round[r];
    t->median = middle(t->round);
    t->ratio = by_rounds(t, expat);
}

static void turn(int who, struct times *t, int round) {
    double begin = now(), spent;
    double whole = 0;
    do {
        t->seen = contender[who].pass();
        whole += (double)t->seen.done / (double)scene.length;
    } while ((spent = now() - begin) < share);
    t->round[round] = spent / whole;
}

/* Every second round goes the other way, so that nobody always comes behind the same one. */
static void compete(struct times *times) {
    for (int r = 0; r < rounds; r++)
        for (int k = 0; k < CONTENDERS; k++) {
            int who = r % 2 ? CONTENDERS - 1 - k : k;
            if (takes_part(who)) turn(who, &times[who], r);
        }
    for (int k = 0; k < CONTENDERS; k++)
        if (takes_part(k)) sum_up(&times[k], &times[EXPAT]);
}

static int disagree(const char *who, struct seen a, struct seen b, int writes) {
    if (a.events == b.events && (!writes || (a.records == b.records && a.sum == b.sum))) return 0;
    fprintf(stderr, "bench: %s sees %llu events and %llu records (sum %016llx), run %llu and %llu (%016llx)\n", who, (unsigned long long)a.events, (unsigned long long)a.records,
            (unsigned long long)a.sum, (unsigned long long)b.events, (unsigned long long)b.records, (unsigned long long)b.sum);
    return 1;
}

static int other_count(uint64_t forecast, uint64_t run) {
    if (forecast == run) return 0;
    fprintf(stderr, "bench: forecast says %llu records, run writes %llu\n", (unsigned long long)forecast, (unsigned long long)run);
    return 1;
}

/* A pass of each, before the rounds: all must see what run sees, and write the same records. */
static int check(struct seen *first) {
    int wrong = 0;
    summing = 1;
    for (int k = 0; k < CONTENDERS; k++) {
        if (!takes_part(k)) continue;
        first[k] = contender[k].pass();
        if (k == FORECASTING) wrong += other_count(first[k].records, first[RUN].records);
        else if (k != MEMCHR && first[k].done == scene.length) wrong += disagree(contender[k].title, first[k], first[RUN], contender[k].writes);
    }
    summing = 0;
    return wrong;
}

/* The lines of advance, each beside expat in the same pieces. */
static void in_pieces(const struct times *times) {
    if (!calcivorne_advance) return;
    printf("| | times expat in the same pieces | by rounds | times `run` | by rounds |\n|---|---:|---:|---:|---:|\n");
    for (int k = ADVANCE64; k <= ADVANCE4; k += ADVANCE4 - ADVANCE64) {
        const struct times *own = &times[k], *expat = &times[k + 1], *run = &times[RUN];
        printf("| %s | %.3g | %.3g | %.3g | %.3g |\n", contender[k].title, expat->best / own->best, by_rounds(own, expat), run->best / own->best, by_rounds(own, run));
    }
    printf("\n");
}

static int table(const char *label, const char *scene_path, const char *rules_path, int with_memory) {
    static struct times times[CONTENDERS];
    static struct seen first[CONTENDERS];
    if (patience == 0) patience = 8 * share;
    int wrong = check(first), cut = first[STEP].done < scene.length;
    struct seen all = first[RUN];
    compete(times);
    double base = times[EXPAT].best, megabytes = (double)scene.length / 1e6;
    printf("### %s: %zu bytes, %llu events, %llu records\n\n", label, scene.length, (unsigned long long)all.events, (unsigned long long)all.records);
    printf("| | MB/s | times expat | by rounds | events/s | records/s | median over best | peak memory | over the scene loaded |\n|---|---:|---:|---:|---:|---:|---:|---:|---:|\n");
    long loaded = with_memory ? peak_of(LOAD, scene_path, rules_path) : 0;
    for (int k = 0; k < CONTENDERS; k++) {
        if (!takes_part(k)) continue;
        double best = times[k].best;
        printf("| %s%s | %.1f | %.3g | %.3g | ", contender[k].title, k == STEP && cut ? " (the first part)" : "", megabytes / best, base / best, times[k].ratio);
        if (k == MEMCHR) printf("| ");
        else printf("%.3g M | ", (double)all.events / best / 1e6);
        if (contender[k].writes) printf("%.3g M | ", (double)all.records / best / 1e6);
        else printf("| ");
        printf("+%.0f %% | ", 100 * (times[k].median / best - 1));
        long peak = with_memory ? peak_of(k, scene_path, rules_path) : 0;
        if (!peak) printf("| |\n");
        else printf("%ld KB | %ld KB |\n", peak, peak - loaded);
        fflush(stdout);
    }
    if (with_memory) printf("\nThe records of `run` are %llu KB of its memory.\n", (unsigned long long)(all.records * 16 + 1023) / 1024);
    printf("\n");
    in_pieces(times);
    return wrong > 0;
}

/* One of the scenes of a series. */
struct entry { const char *label; struct bytes scene, rules, out; struct times run, expat; };

static void take(const struct entry *e) {
    scene = e->scene, rules = e->rules, out = e->out;
}

static int line(struct entry *e) {
    struct seen all = e->run.seen;
    sum_up(&e->expat, &e->expat);
    sum_up(&e->run, &e->expat);
    double best = e->run.best, base = e->expat.best;
    printf("| %s | %zu | %llu | %llu | %.1f | %.3g | %.3g | %.1f | %.1f | %.2f | +%.0f %% |\n", e->label, e->scene.length, (unsigned long long)all.events, (unsigned long long)all.records,
           (double)e->scene.length / 1e6 / best, base / best, e->run.ratio, best * 1e9 / (double)all.events, all.records ? best * 1e9 / (double)all.records : 0.0,
           best * 1e9 / (double)e->scene.length, 100 * (e->run.median / best - 1));
    return disagree("expat", e->expat.seen, all, 0);
}

static int lines(const char *word, char **words, int count) {
    struct entry *all = calloc((size_t)count, sizeof *all);
    int wrong = 0;
    for (int k = 0; k < count; k++) {
        all[k].label = words[3 * k];
        scene = all[k].scene = load(words[3 * k + 1]);
        rules = all[k].rules = load(words[3 * k + 2]);
        make_room();
        all[k].out = out;
    }
    for (int r = 0; r < rounds; r++)
        for (int k = 0; k < count; k++) {
            take(&all[k]);
            turn(RUN, &all[k].run, r);
            turn(EXPAT, &all[k].expat, r);
        }
    printf("| %s | bytes | events | records | `run` MB/s | times expat | by rounds | ns an event | ns a record | ns a byte | median over best |\n|---|---:|---:|---:|---:|---:|---:|---:|---:|---:|---:|\n", word);
    for (int k = 0; k < count; k++) wrong += line(&all[k]);
    printf("\n");
    return wrong > 0;
}

static int once(const char *word) {
    summing = 1;
    for (int k = 0; k <= COMMIT; k++)
        if (!strcmp(word, contender[k].word) && takes_part(k)) {
            struct seen s = contender[k].pass();
            printf("%ld KB, %llu events, %llu records, %llu calls, sum %016llx\n", peak_kb(), (unsigned long long)s.events, (unsigned long long)s.records, (unsigned long long)s.calls, (unsigned long long)s.sum);
            return 0;
        }
    die("no contender ", word);
    return 1;
}

int main(int argc, char **argv) {
    int letter, with_memory = 1;
    while ((letter = getopt(argc, argv, "+r:t:p:n:m")) != -1) {
        if (letter == 'r') rounds = atoi(optarg);
        else if (letter == 't') share = atof(optarg);
        else if (letter == 'p') patience = atof(optarg);
        else if (letter == 'n') most_calls = strtoull(optarg, 0, 10);
        else if (letter == 'm') with_memory = 0;
        else return 2;
    }
    if (rounds < 1 || rounds > MOST_ROUNDS) die("-r is 1 to 64", "");
    argc -= optind, argv += optind;
    if (argc > 4 && argc % 3 == 2 && !strcmp(argv[0], "lines")) return lines(argv[1], argv + 2, argc / 3);
    if (argc != 4 && argc != 5) die("bench table LABEL SCENE RULES, bench lines WORD (LABEL SCENE RULES).., bench once WHO SCENE RULES [ROOM]", "");
    scene = load(argv[2]);
    rules = load(argv[3]);
    if (argc == 5) out.at = malloc(out.length = strtoull(argv[4], 0, 10));
    else if (strcmp(argv[0], "once") || !strcmp(argv[1], "run")) make_room();
    if (!strcmp(argv[0], "table")) return table(argv[1], argv[2], argv[3], with_memory);
    if (!strcmp(argv[0], "once")) return once(argv[1]);
    die("no command ", argv[0]);
    return 2;
}
