/*
 * Tests of tunnels.h over libexport.a. Usage: test EXAMPLES, the folder with worked.txt and three-deep.txt and what the program prints
 * for them. Expected answers are written from document 01.
 */
#include "../tunnels.h"

#include <stdio.h>
#include <stdlib.h>
#include <string.h>

static int checks, failures;

static void check(int line, int good, const char *what)
{
    checks++;
    if (!good) {
        failures++;
        fprintf(stderr, "test.c:%d: %s\n", line, what);
    }
}
#define CHECK(good) check(__LINE__, (good), #good)

/* ---- the answer, between two guard words, filled before each call so that every word is seen to be written */

#define FILL 0xa5a5a5a5a5a5a5a5u
static uint64_t frame[TUNNELS_ANSWER_WORDS + 2];

static uint64_t *answer(void)
{
    for (size_t i = 0; i < TUNNELS_ANSWER_WORDS + 2; i++)
        frame[i] = FILL;
    return frame + 1;
}

static void is(int line, const uint64_t want[TUNNELS_ANSWER_WORDS])
{
    int good = memcmp(frame + 1, want, 8 * TUNNELS_ANSWER_WORDS) == 0 && frame[0] == FILL && frame[TUNNELS_ANSWER_WORDS + 1] == FILL;
    check(line, good, "another answer:");
    if (!good) {
        for (size_t i = 1; i <= TUNNELS_ANSWER_WORDS; i++)
            fprintf(stderr, " %llu", (unsigned long long)frame[i]);
        fprintf(stderr, "\n");
    }
}
/* refused with a number and values, a result, or none; the rest is 0 */
#define REFUSED(...) is(__LINE__, (const uint64_t[TUNNELS_ANSWER_WORDS]){__VA_ARGS__})
#define RESULT(...) is(__LINE__, (const uint64_t[TUNNELS_ANSWER_WORDS]){0, 1, __VA_ARGS__})
#define NONE() is(__LINE__, (const uint64_t[TUNNELS_ANSWER_WORDS]){0, 0})

/* ---- buffers of an exact length, so that valgrind sees a word too far */

#define MARK 0x5a5a5a5au

static uint32_t *room(size_t words)
{
    uint32_t *w = malloc(words ? 4 * words : 1);
    if (!w)
        abort();
    for (size_t i = 0; i < words; i++)
        w[i] = MARK;
    return w;
}

static int unchanged(const uint32_t *w, size_t from, size_t to)
{
    for (size_t i = from; i < to; i++)
        if (w[i] != MARK)
            return 0;
    return 1;
}

static const uint8_t *bytes(const char *s)
{
    return (const uint8_t *)s;
}

/* ---- descriptions and surveys */

static uint32_t ours[TUNNELS_OUR_WORDS];
static uint32_t survey[TUNNELS_MAX_WORDS];
static size_t survey_len;

/* the words of a text that is in order */
static void read_text(int line, const char *text, size_t len)
{
    uint64_t a[TUNNELS_ANSWER_WORDS];
    tunnels_text(bytes(text), len, survey, TUNNELS_MAX_WORDS, a);
    check(line, a[TUNNELS_REFUSAL] == 0 && a[TUNNELS_FOUND] == 1, text);
    survey_len = a[TUNNELS_REFUSAL] == 0 ? (size_t)a[TUNNELS_RESULT] : 0;
}
#define TEXT(text) read_text(__LINE__, (text), strlen(text))

#define BOTH ours, TUNNELS_OUR_WORDS, survey, survey_len

/* a router of a route, with ROUTER_CS_1; an adapter of a kind, whose code is the third register's value */
#define ROUTER(route, cs1) "@router 0 " route "\n@regs\n1 1 0 0 " cs1 "\n"
#define ADAPTER(number, code) "@adapter " number "\n@regs\n0 0 0 0 0\n1 1 0 0 0\n2 2 0 0 " code "\n"
#define PATHS "@paths\n10 0 8 "

/* ---- numbers, lines, dumps */

static void hex(const char *text, uint32_t bits)
{
    tunnels_parse_hex(bytes(text), strlen(text), bits, answer());
}

static void line(const char *text)
{
    tunnels_parse_line(bytes(text), strlen(text), answer());
}

static void test_numbers(void)
{
    hex("0x10", 16), RESULT(16);
    hex("+Ff", 16), RESULT(255);
    hex("0x+0001", 32), RESULT(1);
    hex("ffff", 16), RESULT(65535);
    hex("10000", 16), NONE();
    hex("ffffffff", 32), RESULT(UINT32_MAX);
    hex("100000000", 32), NONE();
    hex("ffffffffffffffff", 64), RESULT(UINT64_MAX);
    hex("10000000000000000", 64), NONE();
    hex("0", 64), RESULT(0);
    hex("", 64), NONE();
    hex("+", 64), NONE();
    hex("-1", 64), NONE();
    hex("0X1", 64), NONE();
    hex("\x80", 64), NONE();
    hex("1", 0), NONE();
    hex("1", 8), NONE();
    hex("1", 65), NONE();
    hex("1", UINT32_MAX), NONE();
}

static void test_lines(void)
{
    line("0x10 0 junk 1"), RESULT(16, 0, 0, 0, 1);
    line("39 0 4 0 80000000"), RESULT(57, 0, 4, 0, 0x80000000);
    line("+10 +2 0 0x+1"), RESULT(16, 2, 0, 0, 1);
    line("ffff 65535 ffff ffff ffffffff rest"), RESULT(65535, 65535, 65535, 65535, UINT32_MAX);
    line("0x10 0 1"), NONE();
    line("10000 0 0 0"), NONE();
    line("# 0 0 0 0"), NONE();
    line(""), NONE();
    line("0 0 0 \x80"), REFUSED(1, 6);
    line("\xff"), REFUSED(1, 0);
}

static void test_dumps(void)
{
    static const char dump[] = "# offset\n10 0 junk 2\n5 1 6 7 1\n10 0 0 3\nno record";
    const size_t len = strlen(dump);
    static const uint32_t want[12] = {0x50000005, 0x10006, 7, 1, 0x50000010, 0, 0, 2, 0x50000010, 0, 0, 3};
    /* scratch and output too short by turns, exact, and longer */
    static const size_t rooms[][2] = {{0, 0}, {11, 12}, {12, 11}, {12, 0}, {0, 12}, {12, 12}, {14, 12}, {12, 15}};
    for (size_t i = 0; i < sizeof rooms / sizeof *rooms; i++) {
        size_t s = rooms[i][0], o = rooms[i][1];
        uint32_t *scratch = room(s), *output = room(o);
        tunnels_read_dump(bytes(dump), len, scratch, s, output, o, answer());
        if (s < 12 || o < 12) {
            REFUSED(TUNNELS_SHORT, 12);
            CHECK(unchanged(scratch, 0, s) && unchanged(output, 0, o));
        } else {
            RESULT(3);
            CHECK(memcmp(output, want, sizeof want) == 0 && unchanged(output, 12, o));
            for (size_t j = 0; j < s; j++)
                CHECK(scratch[j] == 0);
        }
        free(scratch), free(output);
    }
    uint32_t *one = room(1), *two = room(1);
    tunnels_read_dump(bytes("0 0 0 0\n\x80"), 9, one, 1, two, 1, answer()), REFUSED(TUNNELS_NOT_ASCII, 8);
    CHECK(*one == MARK && *two == MARK);
    tunnels_read_dump(bytes("# none"), 6, one, 1, two, 1, answer()), RESULT(0);
    CHECK(*one == 0 && *two == MARK);
    tunnels_read_dump(bytes(""), 0, one, 0, two, 0, answer()), RESULT(0);
    /* the words that are said to be always enough */
    uint32_t scratch[12], output[12];
    static const char tight[] = "0 0 0 1\n0 0 0 2\n0 0 0 3";
    tunnels_read_dump(bytes(tight), strlen(tight), scratch, (strlen(tight) + 1) / 2, output, (strlen(tight) + 1) / 2, answer()), RESULT(3);
    CHECK(TUNNELS_WORD_KIND(output[4]) == TUNNELS_WORD_REGISTER && TUNNELS_REGISTER_OFFSET(output[4]) == 0 && output[7] == 2);
    free(one), free(two);
}

/* ---- descriptions */

/* a name as words, four bytes each, low first; gives their number */
static size_t name(const char *s, uint32_t *w)
{
    size_t len = strlen(s), n = (len + 3) / 4;
    memset(w, 0, 4 * n);
    for (size_t i = 0; i < len; i++)
        w[i / 4] |= (uint32_t)(uint8_t)s[i] << 8 * (i % 4);
    return n;
}

static void describe(uint32_t space, uint32_t kind, uint32_t relative, uint32_t cap, uint32_t vs)
{
    tunnels_describe(ours, TUNNELS_OUR_WORDS, space, kind, relative, cap, vs, answer());
}

static void field(size_t place, uint32_t value, const char *name_of)
{
    tunnels_field(ours, TUNNELS_OUR_WORDS, place, value, bytes(name_of), strlen(name_of), answer());
}

static void test_descriptions(void)
{
    static const size_t rooms[] = {0, TUNNELS_OUR_WORDS - 1, TUNNELS_OUR_WORDS, TUNNELS_OUR_WORDS + 2};
    for (size_t i = 0; i < 4; i++) {
        uint32_t *w = room(rooms[i]);
        tunnels_our_descriptions(w, rooms[i], answer());
        if (rooms[i] < TUNNELS_OUR_WORDS) {
            REFUSED(TUNNELS_SHORT, TUNNELS_OUR_WORDS);
            CHECK(unchanged(w, 0, rooms[i]));
        } else {
            RESULT(TUNNELS_OUR_WORDS);
            CHECK(unchanged(w, TUNNELS_OUR_WORDS, rooms[i]));
            memcpy(ours, w, sizeof ours);
        }
        free(w);
    }

    static uint32_t words[TUNNELS_MAX_WORDS + 1];
    memcpy(words, ours, sizeof ours);
    tunnels_check_descriptions(words, 0, answer()), RESULT(0);
    tunnels_check_descriptions(words, TUNNELS_OUR_WORDS, answer()), RESULT(0);
    tunnels_check_descriptions(words, TUNNELS_OUR_WORDS + 1, answer()), REFUSED(TUNNELS_BAD_DESCRIPTIONS, TUNNELS_OUR_WORDS);
    tunnels_check_descriptions(words, TUNNELS_MAX_WORDS + 1, answer()), REFUSED(TUNNELS_BAD_DESCRIPTIONS, TUNNELS_MAX_WORDS);

    describe(TUNNELS_SPACE_ROUTER, TUNNELS_KIND_UNKNOWN, 1, 0, 0), RESULT(0);
    describe(TUNNELS_SPACE_ADAPTER, TUNNELS_KIND_LANE, 1, 1, 0);
    size_t place = (size_t)frame[1 + TUNNELS_RESULT];
    RESULT(place);
    CHECK(place == 25 && ours[place] == (1u << 28 | 1u << 26 | 1u << 25 | 13u << 16 | 1u));
    describe(TUNNELS_SPACE_ADAPTER, TUNNELS_KIND_PCIE_UP, 1, 1, 0), NONE();
    describe(TUNNELS_SPACE_ROUTER, TUNNELS_KIND_UNKNOWN, 2, 0, 0), NONE();
    describe(UINT32_MAX, UINT32_MAX, UINT32_MAX, UINT32_MAX, UINT32_MAX), NONE();
    tunnels_describe(words, 0, 0, 0, 1, 0, 0, answer()), NONE();
    tunnels_describe(words, TUNNELS_OUR_WORDS + 1, 0, 0, 1, 0, 0, answer()), REFUSED(TUNNELS_BAD_DESCRIPTIONS, TUNNELS_OUR_WORDS);

    field(0, 0xc300, "Max Adapter"), RESULT(3);
    field(0, 0xffffffff, "UPSTREAM adapter"), RESULT(63);
    field(place, 0x08040000, "Current Link Speed"), RESULT(4);
    field(0, 0xc300, "Min Adapter"), REFUSED(TUNNELS_NO_FIELD);
    field(0, 0xc300, ""), REFUSED(TUNNELS_NO_FIELD);
    field(1, 0xc300, "Max Adapter"), REFUSED(TUNNELS_NO_FIELD);
    field(TUNNELS_OUR_WORDS, 0xc300, "Max Adapter"), REFUSED(TUNNELS_NO_FIELD);
    field(SIZE_MAX, 0xc300, "Max Adapter"), REFUSED(TUNNELS_NO_FIELD);
    tunnels_field(words, TUNNELS_OUR_WORDS + 1, 0, 0, bytes("Max Adapter"), 11, answer()), REFUSED(TUNNELS_BAD_DESCRIPTIONS, TUNNELS_OUR_WORDS);
}

/* ---- texts and survey words */

static void test_texts(void)
{
    static const char text[] = "@router 3 0x102\n@usb4\n@regs\nb 2 1 2 c\n" "@adapter 255\n@nopaths\n";
    static const uint32_t want[9] = {0x31000003, 3, 0x102, 0, 0x5000000b, 0x20001, 2, 12, 0x400004ff};
    static const size_t rooms[] = {0, 8, 9, 12};
    for (size_t i = 0; i < 4; i++) {
        uint32_t *w = room(rooms[i]);
        tunnels_text(bytes(text), strlen(text), w, rooms[i], answer());
        if (rooms[i] < 9) {
            REFUSED(TUNNELS_SHORT, 9);
            CHECK(unchanged(w, 0, rooms[i]));
        } else {
            RESULT(9);
            CHECK(memcmp(w, want, sizeof want) == 0 && unchanged(w, 9, rooms[i]));
        }
        free(w);
    }

    /* 65,536 bytes are read, one more is 2 with the length, before 1 */
    static char longest[TUNNELS_MAX_TEXT + 1];
    memset(longest, ' ', sizeof longest);
    longest[TUNNELS_MAX_TEXT] = '\x80';
    tunnels_text(bytes(longest), TUNNELS_MAX_TEXT, survey, 0, answer()), RESULT(0);
    tunnels_text(bytes(longest), TUNNELS_MAX_TEXT + 1, survey, TUNNELS_MAX_WORDS, answer()), REFUSED(TUNNELS_SHORT, TUNNELS_MAX_TEXT + 1);
    longest[TUNNELS_MAX_TEXT - 1] = '\x80';
    tunnels_text(bytes(longest), TUNNELS_MAX_TEXT, survey, 0, answer()), REFUSED(TUNNELS_NOT_ASCII, TUNNELS_MAX_TEXT - 1);

    tunnels_text(bytes(""), 0, survey, 0, answer()), RESULT(0);
    tunnels_text(bytes("@router 0 0\n@paths\n"), 19, survey, 0, answer()), REFUSED(TUNNELS_BAD_SURVEY, 4);
    tunnels_text(bytes("0 0 0 0\n"), 8, survey, 0, answer()), REFUSED(TUNNELS_BAD_SURVEY, 0);

    /* more words than a survey may have */
    size_t at = (size_t)sprintf(longest, "@router 0 0\n@regs\n");
    for (int i = 0; i < 4096; i++, at += 8)
        memcpy(longest + at, "0 0 0 0\n", 8);
    tunnels_text(bytes(longest), at, survey, 0, answer()), REFUSED(TUNNELS_BAD_SURVEY, TUNNELS_MAX_WORDS);

    uint32_t words[5] = {0x31000000, 0, 0, 0, 0x50000000};
    tunnels_check_survey(words, 0, answer()), RESULT(0);
    tunnels_check_survey(words, 4, answer()), RESULT(0);
    tunnels_check_survey(words, 5, answer()), REFUSED(TUNNELS_BAD_SURVEY, 4);
    tunnels_check_survey(words, 3, answer()), REFUSED(TUNNELS_BAD_SURVEY, 0);
    static const uint32_t zeros[TUNNELS_MAX_WORDS + 1];
    tunnels_check_survey(zeros, TUNNELS_MAX_WORDS + 1, answer()), REFUSED(TUNNELS_BAD_SURVEY, TUNNELS_MAX_WORDS);
    tunnels_check_survey(zeros, TUNNELS_MAX_WORDS, answer()), REFUSED(TUNNELS_BAD_SURVEY, 0);
}

/* ---- the calls on a survey */

static void load(void)
{
    tunnels_load(BOTH, answer());
}

static void adapter(size_t place, uint8_t number)
{
    tunnels_adapter(BOTH, place, number, answer());
}

static void speed(size_t place, uint8_t number)
{
    tunnels_link_speed(BOTH, place, number, answer());
}

static void max_hop(size_t place, uint8_t number)
{
    tunnels_max_hop(BOTH, place, number, answer());
}

static void parent(size_t place)
{
    tunnels_parent(BOTH, place, answer());
}

/* without room: 2 comes last, so any other answer comes all the same */
static void walk(size_t place, uint8_t number, uint16_t hop)
{
    uint32_t *none = room(0);
    tunnels_walk(BOTH, place, number, hop, none, 0, answer());
    free(none);
}

static void discover(size_t place, uint8_t number)
{
    uint32_t *none = room(0);
    tunnels_discover(BOTH, place, number, none, 0, answer());
    free(none);
}

/* every call on the survey refuses alike, and writes nothing */
static void all_refused(int at, uint64_t number, uint64_t first, uint64_t second)
{
    const uint64_t want[TUNNELS_ANSWER_WORDS] = {number, first, second};
    uint32_t output[4] = {MARK, MARK, MARK, MARK};
    load(), is(at, want);
    adapter(0, 1), is(at, want);
    speed(0, 1), is(at, want);
    max_hop(0, 1), is(at, want);
    parent(0), is(at, want);
    tunnels_walk(BOTH, 0, 1, 8, output, 4, answer()), is(at, want);
    tunnels_discover(BOTH, 0, 1, output, 4, answer()), is(at, want);
    check(at, unchanged(output, 0, 4), "output changed");
}
#define ALL_REFUSED(...) all_refused(__LINE__, __VA_ARGS__)

static void test_loading(void)
{
    /* nothing listed */
    survey_len = 0;
    load(), RESULT(0, 0);
    adapter(0, 1), REFUSED(TUNNELS_MISSING);
    parent(0), REFUSED(TUNNELS_MISSING);

    /* 4, and 3 before it */
    survey[0] = 0, survey_len = 1;
    ALL_REFUSED(TUNNELS_BAD_SURVEY, 0, 0);
    uint32_t first = ours[0];
    ours[0] = 0;
    ALL_REFUSED(TUNNELS_BAD_DESCRIPTIONS, 0, 0);
    ours[0] = first;

    TEXT("@router 0 0\n@regs\n");
    ALL_REFUSED(TUNNELS_FEW_REGISTERS, 0, 0);
    TEXT("@router 0 0\n" ROUTER("1", "4000") "@adapter 1\n@regs\n0 0 0 0 0\n1 1 0 0 0\n");
    ALL_REFUSED(TUNNELS_FEW_REGISTERS, 1, 1);
    TEXT(ROUTER("0", "4000") ADAPTER("1", "1") "@paths\n10 1 8 0\n");
    ALL_REFUSED(TUNNELS_NO_FIELD, 0, 1);
    TEXT("@xdomain 0 1\n@adapter 1\n");
    ALL_REFUSED(TUNNELS_BAD_ADAPTERS, 0, 0);
    TEXT("@router 0 0\n" ROUTER("0", "8000") "@adapter 1\n");
    ALL_REFUSED(TUNNELS_BAD_ADAPTERS, 1, 0);
    TEXT(ROUTER("0", "4000") ADAPTER("1", "1") "@nopaths\n");
    ALL_REFUSED(TUNNELS_NO_PATH_DUMP, 0, 1);

    /* 8: descriptions with a Gen T Port Count, and a capability so high that the first port is past 65,535 */
    uint32_t gen_t[TUNNELS_OUR_WORDS + 12];
    memcpy(gen_t, ours, sizeof ours);
    uint32_t *g = gen_t + TUNNELS_OUR_WORDS;
    *g++ = 1u << 28 | 1u << 26 | 1u << 25 | 16u << 16;
    *g++ = 4u << 16;
    *g++ = 1u << 12 | 1u << TUNNELS_KIND_USB3_GEN_T_DOWN;
    g += name("ADP_USB3_GT_CS_0", g);
    *g++ = 2u << 28 | 7u << 18 | 16u << 8;
    g += name("Gen T Port Count", g);
    TEXT(ROUTER("0", "4000") ADAPTER("1", "210101") "fffd 0 4 0 1\n");
    tunnels_load(gen_t, (size_t)(g - gen_t), survey, survey_len, answer()), REFUSED(TUNNELS_GEN_T_OFFSET, 0, 1);
    load(), RESULT(1, 0);

    /* as many devices as there is room for, and places at their bounds */
    for (size_t i = 0; i < TUNNELS_MAX_WORDS; i += 4)
        survey[i] = 3u << 28 | (uint32_t)TUNNELS_DEVICE_ROUTER << 24, survey[i + 1] = 0, survey[i + 2] = 0, survey[i + 3] = 0;
    survey_len = TUNNELS_MAX_WORDS;
    load(), RESULT(4096, 0);
    parent(4095), NONE();
    parent(4096), REFUSED(TUNNELS_MISSING);
    parent(SIZE_MAX), REFUSED(TUNNELS_MISSING);
}

static void test_adapters(void)
{
    TEXT(ROUTER("0", "c000") ADAPTER("1", "1") "5 5 0 0 7ff\n31 1 1 0 08040000\n" ADAPTER("2", "1") "@nopaths\n" "@adapter 3\n");
    adapter(0, 1), RESULT(TUNNELS_KIND_LANE, TUNNELS_STATE_CL0, 1, 0, 8, 0);
    adapter(0, 2), RESULT(TUNNELS_KIND_LANE, TUNNELS_STATE_UNKNOWN, 0, 1, 8, 0);
    adapter(0, 3), RESULT(TUNNELS_KIND_INACTIVE, TUNNELS_STATE_UNKNOWN, 0, 0, TUNNELS_NO_MIN_HOP, 0);
    speed(0, 1), RESULT(TUNNELS_SPEED_GEN3);
    speed(0, 2), RESULT(TUNNELS_SPEED_UNKNOWN);
    max_hop(0, 1), RESULT(2047);
    max_hop(0, 2), NONE();
    parent(0), NONE();

    /* speed and largest HopID of registers that lack the field: 6 of these calls alone */
    uint32_t current = ours[33], most = ours[21];
    ours[33] ^= 1;
    load(), RESULT(1, 0);
    speed(0, 1), REFUSED(TUNNELS_NO_FIELD, 0, 1);
    max_hop(0, 1), RESULT(2047);
    ours[33] = current, ours[21] ^= 1;
    speed(0, 1), RESULT(TUNNELS_SPEED_GEN3);
    max_hop(0, 1), REFUSED(TUNNELS_NO_FIELD, 0, 1);
    ours[21] = most;

    /* numbers at their bounds */
    static const size_t places[] = {0, 1, SIZE_MAX};
    static const uint8_t numbers[] = {0, 4, 65, 129, 255};
    for (size_t i = 0; i < 3; i++)
        for (size_t j = 0; j < sizeof numbers; j++) {
            adapter(places[i], numbers[j]), REFUSED(TUNNELS_MISSING);
            speed(places[i], numbers[j]), REFUSED(TUNNELS_MISSING);
            max_hop(places[i], numbers[j]), REFUSED(TUNNELS_MISSING);
            walk(places[i], numbers[j], UINT16_MAX), REFUSED(TUNNELS_MISSING);
            discover(places[i], numbers[j]), REFUSED(TUNNELS_MISSING);
        }
    walk(0, 1, 0), NONE();
    walk(0, 1, UINT16_MAX), NONE();

    /* 255 adapters, under descriptions whose Max Adapter has eight bits */
    uint32_t end = ours[11];
    char text[4096] = ROUTER("0", "3fc000");
    for (size_t i = 1, at = strlen(text); i <= 255; i++)
        at += (size_t)sprintf(text + at, "@adapter %d\n", (int)i);
    ours[11] += 2u << 18;
    TEXT(text);
    adapter(0, 255), RESULT(TUNNELS_KIND_INACTIVE, TUNNELS_STATE_UNKNOWN, 0, 0, TUNNELS_NO_MIN_HOP, 0);
    adapter(0, 0), REFUSED(TUNNELS_MISSING);
    discover(0, 255), NONE();
    ours[11] = end;
}

static void test_walks(void)
{
    /* an out adapter that isn't there */
    TEXT(ROUTER("0", "4000") ADAPTER("1", "1") PATHS "80002808\n");
    walk(0, 1, 8), REFUSED(TUNNELS_NO_OUT_ADAPTER, 0, 5);
    /* up from depth 0, by an upstream lane and by an xdomain */
    TEXT(ROUTER("0", "4100") ADAPTER("1", "1") PATHS "80000808\n" "@xdomain 0 0\n");
    walk(0, 1, 8), REFUSED(TUNNELS_NO_PARENT_ROUTE, 0, 1);
    parent(0), REFUSED(TUNNELS_NO_PARENT_ROUTE, 0, 1);
    parent(1), REFUSED(TUNNELS_NO_PARENT_ROUTE, 1, 0);
    /* down from depth 8 */
    TEXT(ROUTER("0100000000000000", "4000") ADAPTER("1", "1") PATHS "80000808\n");
    walk(0, 1, 8), REFUSED(TUNNELS_NO_DOWNSTREAM_ROUTE, 0, 1);
    /* a path of one hop, since no entry is there behind the lane */
    TEXT(ROUTER("0", "4000") ADAPTER("1", "1") PATHS "80000808\n" ROUTER("1", "4100") ADAPTER("1", "1"));
    walk(0, 1, 8), REFUSED(TUNNELS_SHORT, 3);
    /* 6 as met: the next router's ROUTER_CS_1 is another register, which lacks Upstream Adapter */
    uint32_t lacking[TUNNELS_OUR_WORDS + 6];
    memcpy(lacking, ours, sizeof ours);
    uint32_t *l = lacking + TUNNELS_OUR_WORDS;
    *l++ = 1u << 28 | 11u << 16 | 2u;
    *l++ = 0;
    *l++ = 0;
    l += name("ROUTER_CS_1", l);
    TEXT(ROUTER("0", "4000") ADAPTER("1", "1") PATHS "80000808\n" "@router 0 1\n@regs\n2 2 0 0 0\n");
    tunnels_walk(lacking, (size_t)(l - lacking), survey, survey_len, 0, 1, 8, survey, 0, answer()), REFUSED(TUNNELS_NO_FIELD, 1, 0);
    tunnels_parent(lacking, (size_t)(l - lacking), survey, survey_len, 1, answer()), REFUSED(TUNNELS_NO_FIELD, 1, 0);

    /* the entry of the highest offset, and HopIDs that differ from it or from 8 in high bits alone */
    TEXT(ROUTER("0", "4000") ADAPTER("1", "100101") PATHS "80000808\n" "fffe 0 8 80000fff\n");
    uint32_t last[3];
    tunnels_walk(BOTH, 0, 1, 32767, last, 3, answer()), RESULT(3);
    CHECK(last[0] == 0x90090001 && last[1] == 0xa0000101 && TUNNELS_HOP_IN_HOP(last[2]) == 32767 && TUNNELS_HOP_OUT_HOP(last[2]) == 2047);
    walk(0, 1, 8), REFUSED(TUNNELS_SHORT, 3);
    walk(0, 1, 65535), NONE();
    for (unsigned bit = 4; bit < 16; bit++)
        walk(0, 1, (uint16_t)(8u + (1u << bit))), NONE();

    /* a ring: never ends, whatever the room */
    TEXT(ROUTER("0", "8000") ADAPTER("1", "1") PATHS "80000808\n" ADAPTER("2", "100101") "39 0 4 0 80000000\n" PATHS "80000808\n"
         ROUTER("1", "4100") ADAPTER("1", "1") PATHS "80000808\n");
    uint32_t output[32];
    for (size_t i = 0; i < 32; i++)
        output[i] = MARK;
    tunnels_walk(BOTH, 0, 2, 8, output, 32, answer()), REFUSED(TUNNELS_ENDLESS);
    tunnels_discover(BOTH, 0, 2, output, 32, answer()), REFUSED(TUNNELS_ENDLESS);
    CHECK(unchanged(output, 0, 32));
    walk(0, 2, 8), REFUSED(TUNNELS_ENDLESS);

    /* absent, and an empty list */
    discover(0, 1), NONE();
    TEXT(ROUTER("0", "8000") ADAPTER("1", "2") ADAPTER("2", "2") "5 5 0 0 0\n");
    max_hop(0, 1), NONE();
    discover(0, 1), NONE();
    max_hop(0, 2), RESULT(0);
    discover(0, 2), RESULT(0);

    /* a ring of a host interface, to and from an xdomain */
    TEXT(ROUTER("0", "8000") ADAPTER("1", "1") "5 5 0 0 10\n" PATHS "80001001\n" ADAPTER("2", "2") "5 5 0 0 2\n" "@paths\n2 0 1 80000808\n" "@xdomain 0 1\n");
    static const uint32_t dma[7] = {0x80010203, 0x90070001, 0xa0000201, 0x10008, 0x90080001, 0xa0000102, 0x80001};
    tunnels_discover(BOTH, 0, 2, output, 7, answer()), RESULT(7);
    CHECK(memcmp(output, dma, sizeof dma) == 0 && unchanged(output, 7, 32));
    parent(1), RESULT(0);
}

/* ---- document 01's worked example, and three routers deep */

static char *read_file(const char *folder, const char *file, size_t *len)
{
    char path[4096];
    snprintf(path, sizeof path, "%s/%s", folder, file);
    FILE *f = fopen(path, "rb");
    char *text = malloc(TUNNELS_MAX_TEXT + 1);
    if (!f || !text) {
        perror(path);
        exit(2);
    }
    *len = fread(text, 1, TUNNELS_MAX_TEXT + 1, f);
    fclose(f);
    return text;
}

static const char *const types[] = {"USB 3", "DisplayPort", "PCIe", "DMA"};
static const char *const names[] = {"USB 3 Down", "USB 3 Up", "Video", "AUX TX", "AUX RX", "PCIe Down", "PCIe Up", "DMA TX", "DMA RX"};

/* result words as the program prints them; gives the number of tunnels */
static unsigned put_tunnels(const uint32_t *w, size_t len, char **out)
{
    unsigned tunnels = 0;
    for (size_t i = 0; i < len; i++)
        switch (TUNNELS_WORD_KIND(w[i])) {
        case TUNNELS_WORD_TUNNEL:
            tunnels++;
            *out += sprintf(*out, "%s from %u:%u paths %u %s\n", types[TUNNELS_TUNNEL_TYPE(w[i])], TUNNELS_HOP_PLACE(w[i + 2]),
                            TUNNELS_HOP_IN_ADAPTER(w[i + 2]), TUNNELS_TUNNEL_PATHS(w[i]), TUNNELS_TUNNEL_CLOSED(w[i]) ? "closed" : "open");
            break;
        case TUNNELS_WORD_PATH:
            *out += sprintf(*out, "%s hops %u\n", names[TUNNELS_PATH_NAME(w[i])], TUNNELS_PATH_HOPS(w[i]));
            break;
        default:
            CHECK(TUNNELS_WORD_KIND(w[i]) == TUNNELS_WORD_HOP);
            *out += sprintf(*out, "%u %u %u %u %u\n", TUNNELS_HOP_PLACE(w[i]), TUNNELS_HOP_IN_ADAPTER(w[i]), TUNNELS_HOP_IN_HOP(w[i + 1]),
                            TUNNELS_HOP_OUT_ADAPTER(w[i]), TUNNELS_HOP_OUT_HOP(w[i + 1]));
            i++; /* its second word */
        }
    return tunnels;
}

/* the whole program over the calls: a text to what is printed */
static void test_program(const char *folder, const char *input, const char *printed)
{
    static char page[TUNNELS_MAX_TEXT];
    char *out = page;
    unsigned tunnels = 0;
    size_t len;
    char *text = read_file(folder, input, &len);
    read_text(__LINE__, text, len);
    load();
    uint64_t devices = frame[1 + TUNNELS_RESULT];
    for (size_t place = 0; place < devices; place++)
        for (uint8_t number = 1;; number++) {
            uint64_t a[TUNNELS_ANSWER_WORDS];
            uint32_t output[256];
            tunnels_discover(BOTH, place, number, output, 256, a);
            if (a[TUNNELS_REFUSAL] == TUNNELS_MISSING)
                break;
            CHECK(a[TUNNELS_REFUSAL] == 0);
            tunnels += put_tunnels(output, (size_t)a[TUNNELS_RESULT], &out);
        }
    char first[32];
    size_t head = (size_t)sprintf(first, "tunnels %u\n", tunnels), body = (size_t)(out - page);
    free(text);
    text = read_file(folder, printed, &len);
    CHECK(len == head + body && memcmp(text, first, head) == 0 && memcmp(text + head, page, body) == 0);
    free(text);
}

static void test_worked(const char *folder)
{
    size_t len;
    char *text = read_file(folder, "worked.txt", &len);
    read_text(__LINE__, text, len);
    free(text);
    load(), RESULT(2, 4);
    adapter(0, 1), RESULT(TUNNELS_KIND_LANE, TUNNELS_STATE_UNKNOWN, 1, 0, 8, 0);
    adapter(0, 2), RESULT(TUNNELS_KIND_PCIE_DOWN, TUNNELS_STATE_ENABLED, 0, 0, 8, 1);
    adapter(0, 3), RESULT(TUNNELS_KIND_HOST_INTERFACE, TUNNELS_STATE_ENABLED, 0, 0, 1, 1);
    adapter(1, 2), RESULT(TUNNELS_KIND_PCIE_UP, TUNNELS_STATE_UNKNOWN, 0, 0, 8, 0);
    adapter(1, 3), REFUSED(TUNNELS_MISSING);
    parent(0), NONE();
    parent(1), RESULT(0);

    /* too little room, exact, and more */
    static const uint32_t down[5] = {0x90090002, 0xa0000201, 0x80008, 0xa0010102, 0x80008};
    static const uint32_t tunnel[11] = {0x80010202, 0x90050002, 0xa0000201, 0x80008, 0xa0010102, 0x80008,
                                        0x90060002, 0xa0010201, 0x80008, 0xa0000102, 0x80008};
    static const size_t rooms[] = {0, 1, 4, 5, 6, 10, 11, 14};
    for (size_t i = 0; i < sizeof rooms / sizeof *rooms; i++) {
        size_t n = rooms[i];
        uint32_t *output = room(n);
        tunnels_walk(BOTH, 0, 2, 8, output, n, answer());
        if (n < 5) {
            REFUSED(TUNNELS_SHORT, 5);
            CHECK(unchanged(output, 0, n));
        } else {
            RESULT(5);
            CHECK(memcmp(output, down, sizeof down) == 0 && unchanged(output, 5, n));
        }
        free(output);
        output = room(n);
        tunnels_discover(BOTH, 0, 2, output, n, answer());
        if (n < 11) {
            REFUSED(TUNNELS_SHORT, 11);
            CHECK(unchanged(output, 0, n));
        } else {
            RESULT(11);
            CHECK(memcmp(output, tunnel, sizeof tunnel) == 0 && unchanged(output, 11, n));
        }
        free(output);
    }
    /* no path and absent leave the output as it was */
    uint32_t *output = room(16);
    tunnels_walk(BOTH, 0, 2, 9, output, 16, answer()), NONE();
    tunnels_discover(BOTH, 0, 3, output, 16, answer()), NONE();
    tunnels_discover(BOTH, 0, 1, output, 16, answer()), NONE();
    CHECK(unchanged(output, 0, 16));
    free(output);
}

int main(int argc, char **argv)
{
    if (argc != 2) {
        fprintf(stderr, "usage: %s EXAMPLES\n", argv[0]);
        return 2;
    }
    test_numbers();
    test_lines();
    test_dumps();
    test_descriptions();
    test_texts();
    test_loading();
    test_adapters();
    test_walks();
    test_worked(argv[1]);
    test_program(argv[1], "worked.txt", "worked.out");
    test_program(argv[1], "three-deep.txt", "three-deep.out");
    printf("test.c: %d checks, %d failed\n", checks, failures);
    return failures != 0;
}
