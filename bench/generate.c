/* generate: scenes for the benchmarks, each with a rule table to match.

       generate KIND[:COUNT] SIZE SEED SCENE RULES

   KIND      rig        a rig scene: characters with joints, deformers, weights, wrappers by plug-ins; to depth 60
             deep:D     small elements at depth D (1 to 64; at 1 the root alone with one text)
             strands:K  small elements along K strands that all deliver (1 to 16)
             bindings:B small elements of the outermost of B open bindings (1 to 64)
             text       long texts
             attr       tags of 12 to 16 attributes, some in namespaces of their own
             scripts    short elements whose names, attributes and texts are in Japanese and Greek
             comments   the rig scene with an XML declaration, two instructions, and one byte in ten in comments between elements
   SIZE      bytes of the scene, exactly; K and M for 1,024 and 1,048,576; at least 4K. 16M is taken as 16,777,215.
   SEED      a number. The same words give the same bytes, on every machine.

   What was made is told on standard error. A scene that would pass a limit of the dispatcher is not written. */
#include <stdarg.h>
#include <stdint.h>
#include <stdio.h>
#include <stdlib.h>
#include <string.h>

enum { LONGEST = 16777215, DEPTH = 64, BINDINGS = 64, ATTRIBUTES = 16, NAME = 64, RIG_DEPTH = 60 };

static void die(const char *why) {
    fprintf(stderr, "generate: %s\n", why);
    exit(1);
}

/* Random numbers: splitmix64. */
static uint64_t state;

static uint64_t next_random(void) {
    uint64_t z = (state += 0x9E3779B97F4A7C15u);
    z = (z ^ (z >> 30)) * 0xBF58476D1CE4E5B9u;
    z = (z ^ (z >> 27)) * 0x94D049BB133111EBu;
    return z ^ (z >> 31);
}

/* from low to high, both included */
static int between(int low, int high) {
    return low + (int)(next_random() % (uint64_t)(high - low + 1));
}

/* once in n times */
static int one_in(int n) {
    return between(1, n) == 1;
}

/* At most one random number in the arguments of a call: C leaves their order open. */
#define PICK(words) (words[next_random() % (sizeof words / sizeof *words)])

/* The scene so far, and what stands open in it. */
struct open { char name[NAME * 2 + 2]; int bindings; size_t closing; };

static char *scene;
static size_t used, limit, closing, commented;
static struct open levels[DEPTH + 1];
static int depth, deepest, bound, most_bound, in_tag, indented = 1, commenting;
static unsigned long elements, attributes, declarations, comment_count;

static void putv(const char *form, va_list more) {
    int n = vsnprintf(scene + used, limit - used + 1, form, more);
    if (n < 0 || (size_t)n > limit - used) die("the scene passes its size");
    used += (size_t)n;
}

static void put(const char *form, ...) {
    va_list more;
    va_start(more, form);
    putv(form, more);
    va_end(more);
}

/* the bytes that are left when everything open has been closed */
static size_t room(void) {
    return limit - used - closing;
}

static void new_line(int level) {
    put("\n%*s", indented ? level : 0, "");
}

static void remark(void);

static void start(const char *name) {
    if (depth) new_line(depth);
    if (depth && commenting) remark();
    put("<%s", name);
    if (depth == DEPTH) die("depth 65");
    struct open *o = &levels[depth++];
    snprintf(o->name, sizeof o->name, "%s", name);
    o->bindings = 0;
    o->closing = strlen(name) + 5 + (indented ? (size_t)depth : 0);
    closing += o->closing;
    if (depth > deepest) deepest = depth;
    in_tag = 0;
    elements++;
}

static void attribute(const char *name, const char *form, ...) {
    if (++in_tag > ATTRIBUTES) die("a 17th attribute");
    const char *quote = name[0] == 'n' && name[1] == ':' ? "'" : "\"";
    put(" %s=%s", name, quote);
    va_list more;
    va_start(more, form);
    putv(form, more);
    va_end(more);
    put("%s", quote);
    attributes++;
}

static void declare(const char *prefix, const char *uri) {
    char name[NAME * 2];
    snprintf(name, sizeof name, *prefix ? "xmlns:%s" : "xmlns", prefix);
    attribute(name, "%s", uri);
    attributes--;
    declarations++;
    levels[depth - 1].bindings++;
    if (++bound > BINDINGS) die("a 65th open binding");
    if (bound > most_bound) most_bound = bound;
}

static void body(void) {
    put(">");
}

static void drop_level(void) {
    struct open *o = &levels[--depth];
    closing -= o->closing;
    bound -= o->bindings;
}

/* ends the element just started with /> */
static void empty(void) {
    put("/>");
    drop_level();
}

/* ends the innermost element behind its text */
static void end_text(void) {
    put("</%s>", levels[depth - 1].name);
    drop_level();
}

/* ends the innermost element on a line of its own */
static void end(void) {
    new_line(depth - 1);
    end_text();
}

/* a number with three decimals */
static void number(int low, int high) {
    int n = between(low * 1000, high * 1000), size = n < 0 ? -n : n;
    put("%s%d.%03d", n < 0 ? "-" : "", size / 1000, size % 1000);
}

static void numbers(int count, int low, int high) {
    for (int i = 0; i < count; i++) {
        if (i) put(" ");
        number(low, high);
    }
}

/* The rule table. */
enum { ELEMENT, ATTRIBUTE };
enum { ATTACH, UNWRAP, VALIDATE };
enum { ANY = 255 };

static uint32_t rules[128];
static const char *uris[30];
static int rule_count, uri_count, mode_count = 1, schema_count;

static void rule(int mode, int kind, int class, int action, int schema, int next) {
    if (rule_count == 128) die("a 129th rule");
    rules[rule_count++] = (uint32_t)mode << 27 | (uint32_t)kind << 26 | (uint32_t)class << 18 | (uint32_t)action << 16 | (uint32_t)schema << 8 | (uint32_t)next << 3;
    if (mode >= mode_count) mode_count = mode + 1;
    if (next >= mode_count) mode_count = next + 1;
    if (action == VALIDATE && schema >= schema_count) schema_count = schema + 1;
}

static void list(const char *uri) {
    if (uri_count == 30) die("a 31st namespace");
    uris[uri_count++] = uri;
}

/* Namespaces of a rig scene. The first nine are listed, in this order; the other plug-ins' are not. */
enum { SCENE = 1, JOINTS, DEFORMERS, WEIGHTS, MESHES, CONSTRAINTS, NOTES, MUSCLE, CLOTH };

static const char *const spaces[] = {
    "", "http://rig.example/scene/2.1", "http://rig.example/joints/2.1", "http://rig.example/deformers/2.0", "http://rig.example/weights/1.4",
    "http://rig.example/mesh/1.2", "http://rig.example/constraints/1.0", "http://rig.example/notes/1.0", "http://plug-ins.example/muscle/3", "http://plug-ins.example/cloth/2",
};

static const struct { const char *prefix, *uri, *name; } plug_ins[] = {
    { "m", "http://plug-ins.example/muscle/3", "volume" }, { "cl", "http://plug-ins.example/cloth/2", "drape" }, { "jig", "http://plug-ins.example/jiggle/0.9", "spring" },
    { "st", "http://studio.example/tools/publish", "asset" }, { "fur", "http://plug-ins.example/fur/5", "groom" }, { "px", "urn:plug-in:proximity:2", "cage" },
};

enum { PLUG_INS = sizeof plug_ins / sizeof *plug_ins };

static void list_rig(void) {
    for (int i = SCENE; i <= CLOTH; i++) list(spaces[i]);
}

/* Modes: 0 before the scene, 1 scene, 2 skeleton, 3 deformers, 4 the scene's view of skeletons, 5 meshes.
   Schemas: 0 scene, 1 joints, 2 deformers, 3 meshes, 4 the muscle plug-in's attributes. */
static void rig_rules(void) {
    list_rig();
    rule(0, ELEMENT, SCENE, VALIDATE, 0, 1);
    rule(0, ELEMENT, ANY, UNWRAP, 0, 0);
    rule(0, ATTRIBUTE, ANY, UNWRAP, 0, 0);
    rule(1, ELEMENT, JOINTS, VALIDATE, 1, 2);
    rule(1, ELEMENT, JOINTS, ATTACH, 0, 4);
    rule(1, ELEMENT, MESHES, VALIDATE, 3, 5);
    rule(1, ELEMENT, NOTES, ATTACH, 0, 1);
    rule(1, ELEMENT, ANY, UNWRAP, 0, 1);
    rule(1, ATTRIBUTE, NOTES, ATTACH, 0, 1);
    rule(1, ATTRIBUTE, ANY, UNWRAP, 0, 1);
    rule(2, ELEMENT, DEFORMERS, VALIDATE, 2, 3);
    rule(2, ELEMENT, DEFORMERS, ATTACH, 0, 2);
    rule(2, ELEMENT, JOINTS, ATTACH, 0, 2);
    rule(2, ELEMENT, CONSTRAINTS, ATTACH, 0, 2);
    rule(2, ELEMENT, ANY, UNWRAP, 0, 2);
    rule(2, ATTRIBUTE, NOTES, ATTACH, 0, 2);
    rule(2, ATTRIBUTE, ANY, UNWRAP, 0, 2);
    rule(3, ELEMENT, WEIGHTS, ATTACH, 0, 3);
    rule(3, ELEMENT, NOTES, ATTACH, 0, 3);
    rule(3, ELEMENT, ANY, UNWRAP, 0, 3);
    rule(3, ATTRIBUTE, MUSCLE, VALIDATE, 4, 3);
    rule(3, ATTRIBUTE, NOTES, ATTACH, 0, 3);
    rule(3, ATTRIBUTE, ANY, UNWRAP, 0, 3);
    rule(4, ELEMENT, JOINTS, ATTACH, 0, 4);
    rule(4, ELEMENT, ANY, UNWRAP, 0, 4);
    rule(4, ATTRIBUTE, ANY, UNWRAP, 0, 4);
    rule(5, ELEMENT, WEIGHTS, ATTACH, 0, 5);
    rule(5, ELEMENT, ANY, UNWRAP, 0, 5);
    rule(5, ATTRIBUTE, ANY, UNWRAP, 0, 5);
}

static const char *const bones[] = { "hip", "spine", "chest", "neck", "head", "clavicle", "shoulder", "elbow", "wrist", "thumb", "index", "knee", "ankle", "toe", "jaw", "eye", "tail" };
static const char *const sides[] = { "l", "r", "c" };
static const char *const axes[] = { "x", "y", "z" };
static const char *const people[] = { "ito", "marta", "okafor", "lind", "chen", "rowan" };
static const char *const tags[] = { "hero", "wip", "final", "lod0", "lod1", "retarget" };
static const char *const words[] = {
    "twist", "bind pose checked", "see shot 040", "gain &lt; 0.5", "mirror &amp; freeze", "\xE9\x96\xA2\xE7\xAF\x80", "\xCE\xB2-pose", "volume kept", "from the old rig", "&quot;soft&quot; falloff",
    "two influences > one", "no scale", "exported twice",
};

/* Comments have random numbers of their own, so that all else is as without them; and they leave room for what begins behind them. */
enum { COMMENT_ROOM = 200 };

static uint64_t comment_state;
static size_t spare = 6000;

static void comment(void) {
    size_t begin = used;
    put("<!-- ");
    if (one_in(4)) put("<c:aim target=\"root\" weight=\"0.%03d\"/>", between(0, 999));
    else
        for (int n = between(1, 5); n > 0; n--) put("%s%s", PICK(words), n > 1 ? ", " : "");
    put(" -->");
    commented += used - begin;
    comment_count++;
}

/* a comment on a line of its own, where fewer than one byte in ten stand in comments so far */
static void remark(void) {
    if (commented * 10 >= used || room() <= spare + COMMENT_ROOM) return;
    uint64_t others = state;
    state = comment_state;
    comment();
    comment_state = state;
    state = others;
    new_line(depth);
}

static int joint_ids, outer;    /* joints of the character so far; the plug-in round its skeleton */

static void note(void) {
    start("n:note");
    attribute("by", "%s", PICK(people));
    if (one_in(4)) attribute("xml:lang", one_in(2) ? "en" : "ja");
    body();
    for (int n = between(1, 5); n > 0; n--) put("%s%s", PICK(words), n > 1 ? ", " : "");
    end_text();
}

static void mesh(void) {
    start("g:mesh");
    attribute("name", "mesh_%d", between(1, 999));
    attribute("vertices", "%d", between(100, 9999));
    body();
    start("g:points");
    body();
    numbers(3 * between(8, 32), -200, 200);
    end_text();
    start("g:faces");
    attribute("count", "%d", between(10, 99));
    body();
    for (int n = between(20, 80); n > 0; n--) put(n > 1 ? "%d " : "%d", between(0, 9999));
    end_text();
    end();
}

static int some_plug_in(void) {
    return between(0, PLUG_INS - 1);
}

/* Starts a wrapper of the k-th plug-in, by its prefix or as the default. */
static void start_wrapper(int k) {
    int prefixed = !one_in(3);
    char name[NAME];
    snprintf(name, sizeof name, "%s%s%s", prefixed ? plug_ins[k].prefix : "", prefixed ? ":" : "", plug_ins[k].name);
    start(name);
    declare(prefixed ? plug_ins[k].prefix : "", plug_ins[k].uri);
    int version = between(10, 99);
    attribute("version", "%d.%d", version / 10, version % 10);
    if (one_in(2)) attribute("enabled", "true");
    if (prefixed && one_in(3)) {
        snprintf(name, sizeof name, "%s:seed", plug_ins[k].prefix);
        attribute(name, "%d", between(1, 9999));
    }
    body();
}

static void weights(int count) {
    int prefixed = one_in(3);
    start(prefixed ? "w:weights" : "weights");
    if (!prefixed) declare("", spaces[WEIGHTS]);
    attribute("count", "%d", count);
    attribute("normalized", "true");
    body();
    for (; count > 0 && room() > 400; count--) {
        int part = between(1, 999), first = between(0, joint_ids), second = between(0, joint_ids);
        start(prefixed ? "w:v" : "v");
        attribute("i", "%d", between(0, 99999));
        attribute("j", "%d %d", first, second);
        attribute("w", "0.%03d 0.%03d", part, 1000 - part);
        empty();
    }
    if (one_in(6) && room() > 600) note();
    end();
}

static void blend(void) {
    const char *tag = PICK(tags);
    start("d:blend");
    attribute("name", "%s_%d", tag, between(1, 99));
    attribute("target", "mesh_%d", between(1, 999));
    attribute("weight", "0.%03d", between(0, 999));
    attribute("mode", "add");
    if (one_in(4)) attribute("n:tag", "%s", PICK(tags));
    empty();
}

static void skin(void) {
    start("d:skin");
    attribute("name", "skin_%s", PICK(bones));
    attribute("joint", "%d", between(0, joint_ids));
    attribute("method", one_in(2) ? "linear" : "dual");
    attribute("influences", "%d", between(2, 8));
    attribute("falloff", "0.%03d", between(0, 999));
    if (one_in(3)) attribute("m:gain", "0.%03d", between(0, 999));
    if (one_in(4)) attribute("n:tag", "%s", PICK(tags));
    body();
    weights(between(3, 10));
    end();
}

static void deformers(void) {
    if (room() < 1600) return;
    start_wrapper(some_plug_in());
    start("d:deformers");
    body();
    skin();
    for (int n = between(0, 2); n > 0 && room() > 1400; n--)
        if (one_in(2)) blend();
        else skin();
    end();
    end();
}

/* The least room in which a joint may still begin: what is open is closed behind it, and skins stand whole in it. */
enum { JOINT_ROOM = 3000 };

/* A joint with what it holds, and below it the rest of its chain: so many joints, the last at this level at most. */
static void chain(int count, int lowest) {
    if (room() < JOINT_ROOM) return;
    const char *bone = PICK(bones), *side = PICK(sides);
    start("j:joint");
    attribute("name", "%s_%s_%03d", bone, side, joint_ids % 1000);
    attribute("id", "%d", joint_ids++);
    if (one_in(2)) attribute("order", one_in(2) ? "xyz" : "zxy");
    if (one_in(8)) attribute("n:tag", "%s", PICK(tags));
    body();
    start("j:matrix");
    body();
    numbers(16, -9, 9);
    end_text();
    for (int n = between(0, 2); n > 0; n--) {
        start("j:limit");
        attribute("axis", "%s", PICK(axes));
        attribute("min", "-%d", between(0, 180));
        attribute("max", "%d", between(0, 180));
        empty();
    }
    if (one_in(5)) {
        start("c:aim");
        attribute("target", "%s_%s", PICK(bones), side);
        attribute("weight", "0.%03d", between(0, 999));
        empty();
    }
    int last = count == 1 || depth == lowest;
    if (last || one_in(lowest == RIG_DEPTH - 5 ? 12 : 3)) deformers();
    if (!last) {
        int wrapped = one_in(16) && depth + 1 < lowest;
        if (wrapped) start_wrapper(outer);
        chain(count - 1, lowest);
        if (wrapped) end();
    }
    end();
}

/* The first, and then one in six, has a chain of joints down to depth 60. */
static void character(int k) {
    start("character");
    attribute("name", "char_%04d", k);
    attribute("lod", "%d", between(0, 3));
    if (one_in(3)) attribute("n:author", "%s", PICK(people));
    body();
    note();
    if (room() > 3500) mesh();
    joint_ids = 0;
    outer = some_plug_in();
    start_wrapper(outer);
    start("j:skeleton");
    attribute("units", "cm");
    body();
    for (int n = between(2, 4); n > 0; n--) chain(between(2, 7), RIG_DEPTH - 6);
    if (k % 6 == 0) chain(DEPTH, RIG_DEPTH - 5);
    end();
    end();
    end();
}

/* the root, with every prefix that the exporter knows */
static void start_rig(void) {
    static const char *const prefixes[] = { "", "j", "d", "w", "g", "c", "n", "m" };
    start("rig");
    for (int i = 0; i < 8; i++) declare(prefixes[i], spaces[SCENE + i]);
    attribute("name", "shot_%03d", between(10, 990));
    attribute("exporter", "rigout 4.2");
    body();
}

static void rig(void) {
    rig_rules();
    start_rig();
    if (commenting) new_line(depth), put("<?rigout units=\"cm\" up=\"y\"?>");
    for (int k = 0; room() > 6000; k++) character(k);
    spare = 240;
    while (room() > 240) note();
    end();
}

static void comments(void) {
    commenting = 1;
    comment_state = ~state;
    put("<?xml version=\"1.0\" encoding=\"UTF-8\"?>\n<?xml-stylesheet type=\"text/css\" href=\"rig.css\"?>\n");
    rig();
}

/* A small element of 60 bytes or so; one in four is a text. The prefix is that of all its names. */
static void leaf(int k, const char *prefix) {
    char name[NAME], weight[NAME];
    snprintf(name, sizeof name, "%s%s%s", prefix, *prefix ? ":" : "", k % 4 == 3 ? "matrix" : "limit");
    snprintf(weight, sizeof weight, "%s%sweight", prefix, *prefix ? ":" : "");
    start(name);
    if (k % 4 == 3) {
        body();
        numbers(6, -9, 9);
        end_text();
        return;
    }
    attribute("axis", "%s", PICK(axes));
    attribute("min", "-%d", between(100, 180));
    attribute(weight, "0.%03d", between(0, 999));
    empty();
}

static void leaves(const char *prefix) {
    for (int k = 0; room() > 200; k++) leaf(k, prefix);
}

static void close_all(void) {
    while (depth) end();
}

static void deep(int count) {
    list(spaces[JOINTS]);
    rule(0, ELEMENT, 1, VALIDATE, 0, 0);
    indented = 0;
    start("j:joint");
    declare("j", spaces[JOINTS]);
    body();
    if (count == 1) {
        while (room() > 40) numbers(2, -9, 9), put(" ");
        end_text();
        return;
    }
    while (depth < count - 1) {
        start("j:joint");
        attribute("id", "%d", depth);
        body();
    }
    leaves("j");
    close_all();
}

/* One validate rule a strand at the root. One element in eight stands in a plug-in's wrapper, so that every strand takes a rule there. */
static void strands(int count) {
    list(spaces[JOINTS]);
    for (int k = 0; k < count; k++) rule(0, ELEMENT, 1, VALIDATE, k, 1);
    rule(1, ELEMENT, 1, ATTACH, 0, 1);
    rule(1, ELEMENT, ANY, UNWRAP, 0, 1);
    indented = 0;
    start("j:joint");
    declare("j", spaces[JOINTS]);
    declare("jig", plug_ins[2].uri);
    body();
    for (int k = 0; room() > 300; k++) {
        int wrapped = k % 8 == 0;
        if (wrapped) start("jig:spring"), body();
        leaf(k, "j");
        if (wrapped) end();
    }
    close_all();
}

/* Eight levels hold the bindings. Every name has the outermost one's prefix, which is found last. */
static void bindings(int count) {
    list("http://rig.example/bindings/1");
    rule(0, ELEMENT, 1, VALIDATE, 0, 0);
    indented = 0;
    int done = 0;
    for (int level = 1; level <= 8; level++) {
        start("p01:joint");
        int upto = level == 1 && count < 8 ? 1 : count * level / 8;
        for (; done < upto; done++) {
            char prefix[16], uri[64];
            snprintf(prefix, sizeof prefix, "p%02d", done + 1);
            snprintf(uri, sizeof uri, "http://rig.example/bindings/%d", done + 1);
            declare(prefix, uri);
        }
        body();
    }
    leaves("p01");
    close_all();
}

static void text(void) {
    rig_rules();
    start_rig();
    start("j:skeleton");
    body();
    while (room() > 8000) {
        start("j:curve");
        attribute("channel", "rotate_%s", PICK(axes));
        body();
        for (int n = between(20, 50); n > 0; n--) {
            numbers(12, -180, 180);
            put(one_in(8) ? " &gt; " : "\n");
        }
        end_text();
    }
    while (room() > 240) note();
    close_all();
}

/* joints in other scripts: their names are the elements', what they are told is text */
static void scripts(void) {
    static const char *const joints[] = { "腰", "背骨", "胸", "首", "頭", "鎖骨", "肩", "肘", "手首", "親指", "ひざ", "ισχίο", "γόνατο", "αστράγαλος", "σαγόνι", "ώμος", "ουρά" };
    static const char *const ways[] = { "横", "縦", "奥行", "στροφή" };
    static const char *const told[] = { "左", "右", "回転の限界", "仮の値", "確認済み", "重みは手で塗った", "αριστερά", "δεξιά", "όριο στροφής", "προσωρινή τιμή", "ελέγχθηκε", "βάρη με το χέρι" };
    rig_rules();
    start_rig();
    start("j:骨格");
    body();
    while (room() > 1200) {
        char name[NAME];
        snprintf(name, sizeof name, "j:%s", PICK(joints));
        start(name);
        attribute("軸", "%s", PICK(ways));
        attribute("μήκος", "0.%03d", between(1, 999));
        body();
        for (int n = between(1, 12); n > 0; n--) put("%s%s", PICK(told), n > 1 ? "、" : "");
        end_text();
    }
    close_all();
}

static void attr(void) {
    static const char *const plain[] = { "name", "joint", "method", "influences", "falloff", "smooth", "side", "order", "seed", "gain" };
    rig_rules();
    start_rig();
    start("j:skeleton");
    body();
    start("d:deformers");
    declare("st", plug_ins[3].uri);
    declare("px", plug_ins[5].uri);
    body();
    while (room() > 600) {
        start("d:skin");
        for (int k = 0; k < 10; k++) {
            int value = between(0, 99999);
            attribute(plain[k], "%d.%02d", value / 100, value % 100);
        }
        attribute("n:tag", "%s", PICK(tags));
        attribute("d:rev", "%d", between(1, 99));
        if (one_in(2)) attribute("n:author", "%s", PICK(people));
        if (one_in(2)) attribute("st:id", "%d", between(1, 9999));
        if (one_in(2)) attribute("px:radius", "0.%03d", between(1, 999));
        if (one_in(4)) attribute("m:gain", "0.%03d", between(1, 999));
        empty();
    }
    close_all();
}

static void save(const char *path, const void *bytes, size_t n) {
    FILE *f = fopen(path, "wb");
    if (!f || fwrite(bytes, 1, n, f) != n || fclose(f)) die("a file cannot be written");
}

static void save_table(const char *path) {
    static unsigned char bytes[4 + 4 * 128 + 30 * 256];
    size_t n = 0;
    bytes[n++] = (unsigned char)uri_count;
    bytes[n++] = (unsigned char)mode_count;
    bytes[n++] = (unsigned char)schema_count;
    bytes[n++] = (unsigned char)rule_count;
    for (int i = 0; i < rule_count; i++)
        for (int shift = 24; shift >= 0; shift -= 8) bytes[n++] = (unsigned char)(rules[i] >> shift);
    for (int i = 0; i < uri_count; i++) {
        size_t length = strlen(uris[i]);
        bytes[n++] = (unsigned char)length;
        memcpy(bytes + n, uris[i], length);
        n += length;
    }
    save(path, bytes, n);
}

static size_t size_of(const char *word) {
    char *behind;
    unsigned long long n = strtoull(word, &behind, 10);
    if (*behind == 'K') n <<= 10, behind++;
    else if (*behind == 'M') n <<= 20, behind++;
    if (n == LONGEST + 1ull) n = LONGEST;
    if (*behind || n < 4096 || n > LONGEST) die("SIZE is 4K to 16M");
    return (size_t)n;
}

static int count_of(const char *kind, int most) {
    const char *colon = strchr(kind, ':');
    int n = colon ? atoi(colon + 1) : most;
    if (n < 1 || n > most) die("COUNT is out of its range");
    return n;
}

static int is(const char *kind, const char *word) {
    size_t n = strlen(word);
    return !strncmp(kind, word, n) && (!kind[n] || kind[n] == ':');
}

int main(int argc, char **argv) {
    if (argc != 6) die("generate KIND[:COUNT] SIZE SEED SCENE RULES, KIND rig, deep, strands, bindings, text, attr, scripts or comments");
    const char *kind = argv[1];
    limit = size_of(argv[2]);
    state = strtoull(argv[3], 0, 10);
    scene = malloc(limit + 1);
    if (!scene) die("no memory");
    if (is(kind, "rig")) rig();
    else if (is(kind, "deep")) deep(count_of(kind, DEPTH));
    else if (is(kind, "strands")) strands(count_of(kind, 16));
    else if (is(kind, "bindings")) bindings(count_of(kind, BINDINGS));
    else if (is(kind, "text")) text();
    else if (is(kind, "attr")) attr();
    else if (is(kind, "scripts")) scripts();
    else if (is(kind, "comments")) comments();
    else die("KIND is rig, deep, strands, bindings, text, attr, scripts or comments");
    memset(scene + used, '\n', limit - used);
    save(argv[4], scene, limit);
    save_table(argv[5]);
    fprintf(stderr, "%s: %zu bytes (%zu of them space behind the root), %lu elements, %lu attributes, %lu declarations, depth %d, %d open bindings, %d rules", kind, limit, limit - used, elements, attributes, declarations, deepest, most_bound, rule_count);
    if (commenting) fprintf(stderr, ", %zu bytes in %lu comments", commented, comment_count);
    fprintf(stderr, "\n");
    return 0;
}
