/*
 * A proved reader of USB4 tunnel dumps, for C and C++. Link libexport.a, which `rt lib` in crates/export builds. docs/01-scope.md, called
 * document 01 here, decides what each call answers. README.md beside this file says what the boundary does not check.
 *
 * A slice is a pointer and its number of elements. The last parameter of every call is its answer, eight words that the call overwrites:
 *
 *   refused              the refusal's number (1 to 14), its values in document 01's order, then 0
 *   a result             0, 1, the result's words, then 0
 *   none or absent       0, 0, then 0
 *
 * Every word of the answer is written. After a refusal, none or absent every other buffer is as it was; after a result, words of the output
 * past it keep their contents. No pointer is null, also where its number of elements is 0.
 */
#ifndef TUNNELS_H
#define TUNNELS_H

#if !defined(__x86_64__) || defined(__ILP32__) || !defined(__linux__)
#error "libexport.a is for 64-bit x86 Linux"
#endif

#include <stddef.h>
#include <stdint.h>

#ifdef __cplusplus
extern "C" {
#endif

/* answer[TUNNELS_REFUSAL]: 0 or a refusal; answer[TUNNELS_FOUND]: 1 if there is a result; from answer[TUNNELS_RESULT] on: the result */
enum { TUNNELS_REFUSAL = 0, TUNNELS_FOUND = 1, TUNNELS_RESULT = 2, TUNNELS_ANSWER_WORDS = 8 };

/*
 * Refusals; their values start at answer[1]. 5 to 12 come with device place and adapter number, which is 0 for the router itself, for an
 * xdomain and always for 7; for 10 it is the missing number. Only tunnels_field gives 6 without them.
 */
enum {
    TUNNELS_NOT_ASCII = 1,            /* byte place: a byte is above 127 */
    TUNNELS_SHORT = 2,                /* words needed: output or scratch is shorter than a complete answer; a text that is too long: its bytes */
    TUNNELS_BAD_DESCRIPTIONS = 3,     /* head place of the first group that breaks the rules; 16,384: too long */
    TUNNELS_BAD_SURVEY = 4,           /* the same for the survey; of a text, see tunnels_text */
    TUNNELS_FEW_REGISTERS = 5,        /* registers read, but a router has none or an adapter fewer than three */
    TUNNELS_NO_FIELD = 6,             /* a named register lacks the field, a flag isn't one bit, or a flag of a nameless register */
    TUNNELS_BAD_ADAPTERS = 7,         /* under a device that isn't a router or has no ROUTER_CS_1, or not 1 to Max Adapter in order */
    TUNNELS_GEN_T_OFFSET = 8,         /* a Gen T offset passes 65,535 */
    TUNNELS_NO_PATH_DUMP = 9,         /* the path dump is missing and the adapter is no lane 1 */
    TUNNELS_NO_OUT_ADAPTER = 10,      /* a hop's out adapter isn't on its router */
    TUNNELS_NO_PARENT_ROUTE = 11,     /* a parent route is needed at depth 0 */
    TUNNELS_NO_DOWNSTREAM_ROUTE = 12, /* a lane at depth 8 needs a downstream route */
    TUNNELS_ENDLESS = 13,             /* a walk never ends */
    TUNNELS_MISSING = 14              /* the device or adapter asked for isn't there */
};

/* Spaces of descriptions. */
enum { TUNNELS_SPACE_ROUTER = 0, TUNNELS_SPACE_ADAPTER = 1, TUNNELS_SPACE_PATH = 2 };

/* Kinds of adapters. */
enum {
    TUNNELS_KIND_UNKNOWN = 0,
    TUNNELS_KIND_INACTIVE = 1,
    TUNNELS_KIND_LANE = 2,
    TUNNELS_KIND_HOST_INTERFACE = 3,
    TUNNELS_KIND_DISPLAY_PORT_IN = 4,
    TUNNELS_KIND_DISPLAY_PORT_OUT = 5,
    TUNNELS_KIND_PCIE_DOWN = 6,
    TUNNELS_KIND_PCIE_UP = 7,
    TUNNELS_KIND_USB3_DOWN = 8,
    TUNNELS_KIND_USB3_UP = 9,
    TUNNELS_KIND_USB3_GEN_T_DOWN = 10,
    TUNNELS_KIND_USB3_GEN_T_UP = 11
};

/* States of adapters. */
enum {
    TUNNELS_STATE_UNKNOWN = 0,
    TUNNELS_STATE_DISABLED = 1,
    TUNNELS_STATE_ENABLED = 2,
    TUNNELS_STATE_TRAINING = 3,
    TUNNELS_STATE_CL0 = 4,
    TUNNELS_STATE_CL0S_TX = 5,
    TUNNELS_STATE_CL0S_RX = 6,
    TUNNELS_STATE_CL1 = 7,
    TUNNELS_STATE_CL2 = 8,
    TUNNELS_STATE_CLD = 9
};

/* Link speeds. */
enum { TUNNELS_SPEED_UNKNOWN = 0, TUNNELS_SPEED_GEN2 = 1, TUNNELS_SPEED_GEN3 = 2, TUNNELS_SPEED_GEN4 = 3 };

/* Kinds of devices, in a survey's device heads. */
enum {
    TUNNELS_DEVICE_DOMAIN = 0,
    TUNNELS_DEVICE_ROUTER = 1,
    TUNNELS_DEVICE_XDOMAIN = 2,
    TUNNELS_DEVICE_RETIMER = 3,
    TUNNELS_DEVICE_SERVICE = 4,
    TUNNELS_DEVICE_UNKNOWN = 5
};

/* Types of tunnels. */
enum { TUNNELS_TYPE_USB3 = 0, TUNNELS_TYPE_DISPLAY_PORT = 1, TUNNELS_TYPE_PCIE = 2, TUNNELS_TYPE_DMA = 3 };

/* Names of paths; a single walk's path has none. */
enum {
    TUNNELS_PATH_USB3_DOWN = 0,
    TUNNELS_PATH_USB3_UP = 1,
    TUNNELS_PATH_VIDEO = 2,
    TUNNELS_PATH_AUX_TX = 3,
    TUNNELS_PATH_AUX_RX = 4,
    TUNNELS_PATH_PCIE_DOWN = 5,
    TUNNELS_PATH_PCIE_UP = 6,
    TUNNELS_PATH_DMA_TX = 7,
    TUNNELS_PATH_DMA_RX = 8,
    TUNNELS_PATH_NONE = 9
};

/* Limits. A path has at most 4,096 hops. */
enum {
    TUNNELS_MAX_WORDS = 16384,     /* of descriptions and of a survey, each */
    TUNNELS_MAX_TEXT = 65536,      /* bytes of a text */
    TUNNELS_MAX_PATH_WORDS = 8193, /* what a single walk can need */
    TUNNELS_OUR_WORDS = 91,        /* what our descriptions need */
    TUNNELS_NO_MIN_HOP = 65536     /* in an adapter's result: its kind has no least HopID */
};

/*
 * Words. A head word's top four bits are its kind. A register takes four words: head, relative offset and cap id, vs id, value. In result
 * words a tunnel has one word, then its paths; a path has one word, then its hops; a hop has two, its head and its HopIDs.
 */
enum { TUNNELS_WORD_DEVICE = 3, TUNNELS_WORD_ADAPTER = 4, TUNNELS_WORD_REGISTER = 5, TUNNELS_WORD_TUNNEL = 8, TUNNELS_WORD_PATH = 9, TUNNELS_WORD_HOP = 10 };

#define TUNNELS_WORD_KIND(head) ((uint32_t)(head) >> 28)

/*
 * Survey words from dumps of one's own: a device's head, domain, route low, route high; its records; for each adapter its head, its records and,
 * with TUNNELS_REGISTER_PATH set in each head, the records of its path dump. tunnels_check_survey says whether they follow the rules; document 01, "Words", has the bits
 * of the heads. tunnels_text makes them from a text.
 */
#define TUNNELS_REGISTER_PATH 0x10000u

#define TUNNELS_REGISTER_OFFSET(head) ((uint32_t)(head) & 0xffffu)
#define TUNNELS_REGISTER_RELATIVE(second) ((uint32_t)(second) >> 16)
#define TUNNELS_REGISTER_CAP_ID(second) ((uint32_t)(second) & 0xffffu)

#define TUNNELS_TUNNEL_TYPE(head) ((uint32_t)(head) & 0xfu)
#define TUNNELS_TUNNEL_PATHS(head) ((uint32_t)(head) >> 8 & 0xffu)
#define TUNNELS_TUNNEL_CLOSED(head) ((uint32_t)(head) >> 16 & 1u)

#define TUNNELS_PATH_NAME(head) ((uint32_t)(head) >> 16 & 0xfu)
#define TUNNELS_PATH_HOPS(head) ((uint32_t)(head) & 0xffffu)

#define TUNNELS_HOP_PLACE(head) ((uint32_t)(head) >> 16 & 0xfffu)
#define TUNNELS_HOP_IN_ADAPTER(head) ((uint32_t)(head) >> 8 & 0xffu)
#define TUNNELS_HOP_OUT_ADAPTER(head) ((uint32_t)(head) & 0xffu)
#define TUNNELS_HOP_IN_HOP(second) ((uint32_t)(second) >> 16)
#define TUNNELS_HOP_OUT_HOP(second) ((uint32_t)(second) & 0xffffu)

/* ---- numbers, lines, dumps ---- */

/*
 * A hexadecimal number of 16, 32 or 64 bits, as document 01's module 1 reads it.
 * Result: the number. None: it is no number, it does not fit, or bits is neither 16, 32 nor 64. Never refused.
 */
void tunnels_parse_hex(const uint8_t *text, size_t text_len, uint32_t bits, uint64_t answer[8]);

/*
 * A line of a dump. Result: offset, relative offset, cap id, vs id, value. None: the line gives no record. Refused: 1 (place in the line).
 */
void tunnels_parse_line(const uint8_t *line, size_t line_len, uint64_t answer[8]);

/*
 * A dump's records, sorted by offset, four words each, in output. Result: the number of records; every scratch word is then 0.
 * Refused: 1 (place in the dump), then 2 (4 x records). (dump_len + 1) / 2 words of scratch and of output are always enough.
 */
void tunnels_read_dump(const uint8_t *dump, size_t dump_len, uint32_t *scratch, size_t scratch_len, uint32_t *output, size_t output_len, uint64_t answer[8]);

/* ---- descriptions ---- */

/* Our descriptions, as words. Result: their number, TUNNELS_OUR_WORDS. Refused: 2. */
void tunnels_our_descriptions(uint32_t *output, size_t output_len, uint64_t answer[8]);

/* Whether description words follow the rules. A result without words, or refused: 3. */
void tunnels_check_descriptions(const uint32_t *words, size_t words_len, uint64_t answer[8]);

/*
 * Which description names a register of a space, at an adapter of a kind (no matter in router space), by its relative offset and ids, 0
 * for none. Result: the head place of its group. None: the register is nameless. Refused: 3.
 */
void tunnels_describe(const uint32_t *descriptions, size_t descriptions_len, uint32_t space, uint32_t kind, uint32_t relative_offset, uint32_t cap_id, uint32_t vs_id, uint64_t answer[8]);

/*
 * A field, by name or short name, of the register whose group has its head at a place, in a value of that register.
 * Result: the field's value. Refused: 3; 6, without values, where the register lacks the field or no register has its head there.
 */
void tunnels_field(const uint32_t *descriptions, size_t descriptions_len, size_t place, uint32_t value, const uint8_t *name, size_t name_len, uint64_t answer[8]);

/* ---- surveys ---- */

/*
 * A text of document 01's program as survey words. Result: their number. Refused, in this order: 2 with the text's length if that is above
 * TUNNELS_MAX_TEXT, 1, 4, and 2 with the words needed. 4 comes with the number of words made before the line that may not stand there, which
 * may pass TUNNELS_MAX_WORDS, or with TUNNELS_MAX_WORDS if the survey is too long. TUNNELS_MAX_WORDS words of output are always enough.
 */
void tunnels_text(const uint8_t *text, size_t text_len, uint32_t *output, size_t output_len, uint64_t answer[8]);

/* Whether survey words follow the rules. A result without words, or refused: 4. */
void tunnels_check_survey(const uint32_t *words, size_t words_len, uint64_t answer[8]);

/*
 * The calls below load the survey. Refused, in this order: 3, 4, then 5 to 9 as loading meets them, then 14, and then what each of them
 * says. A place is a device's number in the survey, from 0; adapters are numbered from 1 without a gap, so whoever wants all of them asks
 * until 14. Each call loads the survey anew, which takes longer than all else that it does.
 */

/* Whether a survey is accepted. Result: its number of devices, its number of valid path entries. Refused: 3 to 9. */
void tunnels_load(const uint32_t *descriptions, size_t descriptions_len, const uint32_t *survey, size_t survey_len, uint64_t answer[8]);

/*
 * An adapter. Result: kind, state, whether it is lane 0, whether it is lane 1, least HopID (or TUNNELS_NO_MIN_HOP), whether it is enabled.
 * Refused: 3 to 9, 14.
 */
void tunnels_adapter(const uint32_t *descriptions, size_t descriptions_len, const uint32_t *survey, size_t survey_len, size_t place, uint8_t adapter, uint64_t answer[8]);

/* An adapter's link speed. Result: the speed; unknown for one that is no lane, or whose state has none. Refused: 3 to 9, 14, 6. */
void tunnels_link_speed(const uint32_t *descriptions, size_t descriptions_len, const uint32_t *survey, size_t survey_len, size_t place, uint8_t adapter, uint64_t answer[8]);

/* An adapter's largest HopID. Result: the HopID. None: it has none. Refused: 3 to 9, 14, 6. */
void tunnels_max_hop(const uint32_t *descriptions, size_t descriptions_len, const uint32_t *survey, size_t survey_len, size_t place, uint8_t adapter, uint64_t answer[8]);

/* A device's parent. Result: its place. None: it has none. Refused: 3 to 9, 14, 6, 11. */
void tunnels_parent(const uint32_t *descriptions, size_t descriptions_len, const uint32_t *survey, size_t survey_len, size_t place, uint64_t answer[8]);

/*
 * The walk from an adapter and HopID. Result: the number of words in output, a path word with name TUNNELS_PATH_NONE and its hops.
 * None: no path. Refused: 3 to 9, 14, 6 and 10 to 13 as met, 2 last (TUNNELS_MAX_PATH_WORDS are always enough).
 */
void tunnels_walk(const uint32_t *descriptions, size_t descriptions_len, const uint32_t *survey, size_t survey_len, size_t place, uint8_t adapter, uint16_t hop, uint32_t *output, size_t output_len, uint64_t answer[8]);

/*
 * The tunnels from an adapter. Result: the number of words in output, tunnels with their paths and hops; 0 is an empty list. None: absent.
 * Refused: 3 to 9, 14, 6 and 10 to 13 as met, 2 last. No size is always enough: after 2, ask again with answer[1] words.
 */
void tunnels_discover(const uint32_t *descriptions, size_t descriptions_len, const uint32_t *survey, size_t survey_len, size_t place, uint8_t adapter, uint32_t *output, size_t output_len, uint64_t answer[8]);

#ifdef __cplusplus
}
#endif

#endif
