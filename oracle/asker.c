/* Asks our static library: questions on standard input, answers on standard output, as calls.py says. Every word that is lent for
   writing has a value of its own beforehand, so that words written and words left alone can be told apart; guard words stand around
   each such buffer, and what is lent for reading ends where memory ends and is compared afterwards. */
#include <stdint.h>
#include <stdio.h>
#include <stdlib.h>
#include <string.h>
#include <sys/mman.h>

#include "tunnels.h"

typedef const uint32_t *words;
typedef const uint8_t *bytes;

enum { MOST = 1 << 20, PAGE = 1 << 16, GUARD = 16, ANSWER = TUNNELS_ANSWER_WORDS };
enum call { DESCRIPTIONS = 1, SURVEY, HEX, LINE, DUMP, CHECK_DESCRIPTIONS, CHECK_SURVEY, DESCRIBE, FIELD, LOAD, ADAPTER, LINK_SPEED, MAX_HOP,
            PARENT, WALK, DISCOVER, TEXT, OURS };
/* What the status says. */
enum { OUTPUT_GUARD = 1, SCRATCH_GUARD = 2, ANSWER_GUARD = 4, INPUT_CHANGED = 8 };

struct question {
    uint32_t call, length;      /* bytes that follow */
    uint64_t place;
    uint32_t a, b, c, d, e;
    uint32_t room, scratch;     /* words */
    uint32_t salt;
};

static void stop(const char *why) {
    fprintf(stderr, "asker: %s\n", why);
    exit(2);
}

static void *memory(size_t size) {
    char *p = mmap(NULL, size + PAGE, PROT_READ | PROT_WRITE, MAP_PRIVATE | MAP_ANONYMOUS, -1, 0);
    if (p == MAP_FAILED || mprotect(p + size, PAGE, PROT_NONE) != 0)
        stop("no memory");
    return p;
}

/* What is lent for reading: it ends where memory ends. */
struct input {
    char *memory, *copy, *at;
    size_t length;
};

static void lend(struct input *in, size_t length) {
    if (!in->memory) {
        in->memory = memory(MOST);
        in->copy = memory(MOST);
    }
    if (length > MOST)
        stop("too much");
    in->length = length;
    in->at = in->memory + MOST - length;
    if (fread(in->at, 1, length, stdin) != length)
        stop("a question is cut off");
    memcpy(in->copy, in->at, length);
}

static int changed(const struct input *in) {
    return in->length && memcmp(in->at, in->copy, in->length) != 0;
}

/* What is lent for writing, with guard words before and after it. */
struct buffer {
    uint32_t *memory;
    size_t room;
};

static uint32_t pattern(uint32_t salt, uint32_t i) {
    uint32_t w = (i + 1) * 0x9E3779B1u ^ salt;
    return w ? w : 1;
}

static uint32_t *prepare(struct buffer *b, size_t room, uint32_t salt) {
    if (!b->memory)
        b->memory = memory(MOST);
    if (4 * (room + 2 * GUARD) > MOST)
        stop("too much room");
    b->room = room;
    for (size_t i = 0; i < room + 2 * GUARD; i++)
        b->memory[i] = pattern(salt, (uint32_t)(i - GUARD));
    return b->memory + GUARD;
}

static int guard_changed(const struct buffer *b, uint32_t salt) {
    for (size_t i = 0; i < GUARD; i++)
        if (b->memory[i] != pattern(salt, (uint32_t)(i - GUARD)) || b->memory[GUARD + b->room + i] != pattern(salt, (uint32_t)(b->room + i)))
            return 1;
    return 0;
}

/* How many words there are up to the last that isn't as it was. */
static uint32_t touched(const struct buffer *b, uint32_t salt) {
    size_t n = b->room;
    while (n && b->memory[GUARD + n - 1] == pattern(salt, (uint32_t)(n - 1)))
        n--;
    return (uint32_t)n;
}

static struct input text, descriptions, survey;
static struct buffer output, scratch;

static void ask(const struct question *q, uint64_t *answer) {
    words d = (words)descriptions.at, s = (words)survey.at;
    size_t dn = descriptions.length / 4, sn = survey.length / 4, place = q->place;
    bytes t = (bytes)text.at;
    uint32_t *out = output.memory + GUARD;
    switch (q->call) {
    case HEX: tunnels_parse_hex(t, text.length, q->a, answer); break;
    case LINE: tunnels_parse_line(t, text.length, answer); break;
    case DUMP: tunnels_read_dump(t, text.length, scratch.memory + GUARD, q->scratch, out, q->room, answer); break;
    case CHECK_DESCRIPTIONS: tunnels_check_descriptions(d, dn, answer); break;
    case CHECK_SURVEY: tunnels_check_survey(s, sn, answer); break;
    case DESCRIBE: tunnels_describe(d, dn, q->a, q->b, q->c, q->d, q->e, answer); break;
    case FIELD: tunnels_field(d, dn, place, q->a, t, text.length, answer); break;
    case LOAD: tunnels_load(d, dn, s, sn, answer); break;
    case ADAPTER: tunnels_adapter(d, dn, s, sn, place, (uint8_t)q->a, answer); break;
    case LINK_SPEED: tunnels_link_speed(d, dn, s, sn, place, (uint8_t)q->a, answer); break;
    case MAX_HOP: tunnels_max_hop(d, dn, s, sn, place, (uint8_t)q->a, answer); break;
    case PARENT: tunnels_parent(d, dn, s, sn, place, answer); break;
    case WALK: tunnels_walk(d, dn, s, sn, place, (uint8_t)q->a, (uint16_t)q->b, out, q->room, answer); break;
    case DISCOVER: tunnels_discover(d, dn, s, sn, place, (uint8_t)q->a, out, q->room, answer); break;
    case TEXT: tunnels_text(t, text.length, out, q->room, answer); break;
    case OURS: tunnels_our_descriptions(out, q->room, answer); break;
    default: stop("no such call");
    }
}

/* A wrong library, for seeing that the comparison finds it: the first call that fits is altered. */
static const char *wanted;

static int is(const char *name) {
    if (!wanted || strcmp(wanted, name) != 0)
        return 0;
    wanted = NULL;
    return 1;
}

static void alter(const struct question *q, uint64_t *answer) {
    uint32_t *out = output.memory + GUARD, *scr = scratch.memory + GUARD;
    int writes = q->call == DUMP || q->call == WALK || q->call == DISCOVER || q->call == TEXT || q->call == OURS;
    int result = answer[0] == 0 && answer[1] == 1;
    uint64_t written = writes && result ? answer[2] * (q->call == DUMP ? 4 : 1) : 0;
    if (result && !writes && answer[2] && is("value"))
        answer[2] ^= 1;
    if (result && writes && is("count"))
        answer[2]++;
    if (answer[0] && is("refusal"))
        answer[0] = answer[0] == 4 ? 7 : 4;
    if (answer[0] > 1 && answer[1] && is("place"))
        answer[1]--;
    if (answer[0] == 2 && is("needed"))
        answer[1]++;
    if (answer[0] == 0 && answer[1] == 0 && is("none"))
        answer[1] = 1;
    if (answer[0] == 13 && is("ring"))
        answer[0] = 0;
    if (result && is("rest"))
        answer[7] = 1;
    if (written && is("word"))
        out[written - 1] ^= 1;
    if (written && is("first word"))
        out[0] ^= 1 << 16;
    if (written && is("not written"))
        out[written - 1] = pattern(q->salt, (uint32_t)written - 1);
    if (written && written < q->room && is("past"))
        out[written] = 0;
    if (written && written == q->room && is("beyond"))
        out[written]++;
    if (writes && is("before"))
        out[-1]++;
    if (answer[0] && writes && q->room && is("after a refusal"))
        out[q->room - 1] = 0;
    if (answer[0] && q->call == DUMP && q->scratch && is("scratch after a refusal"))
        scr[0] = 0;
    if (result && q->call == DUMP && q->scratch && is("scratch"))
        scr[q->scratch - 1] = 1;
    if (answer[0] == 0 && q->call >= LOAD && survey.length && is("input"))
        survey.at[survey.length - 1] ^= 1;
    if (is("answer's end"))
        answer[ANSWER] = 0;
}

static void put(const void *p, size_t size, size_t n) {
    if (n && fwrite(p, size, n, stdout) != n)
        stop("no answer written");
}

int main(void) {
    struct question q;
    const uint64_t mark = 0x5A5A5A5A5A5A5A5Au;
    wanted = getenv("ASKER_ALTERED");
    lend(&text, 0);
    lend(&descriptions, 0);
    lend(&survey, 0);
    while (fread(&q, sizeof q, 1, stdin) == 1) {
        if (q.call == DESCRIPTIONS || q.call == SURVEY) {
            lend(q.call == DESCRIPTIONS ? &descriptions : &survey, q.length);
            continue;
        }
        lend(&text, q.length);
        prepare(&output, q.room, q.salt);
        prepare(&scratch, q.scratch, ~q.salt);
        uint64_t answer[ANSWER + 2];
        for (int i = 0; i < ANSWER + 2; i++)
            answer[i] = mark;
        ask(&q, answer + 1);
        alter(&q, answer + 1);
        uint32_t told[3] = {0, touched(&output, q.salt), touched(&scratch, ~q.salt)};
        if (guard_changed(&output, q.salt))
            told[0] |= OUTPUT_GUARD;
        if (guard_changed(&scratch, ~q.salt))
            told[0] |= SCRATCH_GUARD;
        if (answer[0] != mark || answer[ANSWER + 1] != mark)
            told[0] |= ANSWER_GUARD;
        if (changed(&text) || changed(&descriptions) || changed(&survey)) {
            told[0] |= INPUT_CHANGED;
            memcpy(text.at, text.copy, text.length);
            memcpy(descriptions.at, descriptions.copy, descriptions.length);
            memcpy(survey.at, survey.copy, survey.length);
        }
        put(answer + 1, sizeof *answer, ANSWER);
        put(told, sizeof *told, 3);
        put(output.memory + GUARD, 4, told[1]);
        put(scratch.memory + GUARD, 4, told[2]);
        if (fflush(stdout) != 0)
            stop("no answer written");
    }
    return 0;
}
