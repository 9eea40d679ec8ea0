/*
 * How much stack each call needs: a thread runs it on a painted stack, and what is no longer paint was used. Fails if a call needs more
 * than README.md says.
 */
#define _XOPEN_SOURCE 700
#include "../tunnels.h"

#include <pthread.h>
#include <stdio.h>
#include <stdlib.h>
#include <string.h>

#define STACK ((size_t)8 << 20)
#define SAID ((size_t)1 << 20)
#define RECORDS ((size_t)1 << 16)

static uint32_t ours[TUNNELS_OUR_WORDS], survey[TUNNELS_MAX_WORDS], output[4 * RECORDS], scratch[4 * RECORDS];
static size_t survey_len;
static uint64_t answer[TUNNELS_ANSWER_WORDS];
static char text[8 * RECORDS];

static void *nothing(void *p)
{
    return p;
}

static void *read_text(void *p)
{
    tunnels_text((const uint8_t *)text, strlen(text), survey, TUNNELS_MAX_WORDS, answer);
    survey_len = (size_t)answer[TUNNELS_RESULT];
    return p;
}

static void *read_dump(void *p)
{
    tunnels_read_dump((const uint8_t *)text, sizeof text, scratch, 4 * RECORDS, output, 4 * RECORDS, answer);
    return p;
}

#define BOTH ours, TUNNELS_OUR_WORDS, survey, survey_len

static void *load(void *p)
{
    tunnels_load(BOTH, answer);
    return p;
}

static void *adapter(void *p)
{
    tunnels_adapter(BOTH, 0, 2, answer);
    return p;
}

static void *parent(void *p)
{
    tunnels_parent(BOTH, 1, answer);
    return p;
}

static void *walk(void *p)
{
    tunnels_walk(BOTH, 0, 2, 8, output, 4 * RECORDS, answer);
    return p;
}

static void *discover(void *p)
{
    tunnels_discover(BOTH, 0, 2, output, 4 * RECORDS, answer);
    return p;
}

static void *discover_rings(void *p)
{
    tunnels_discover(BOTH, 0, 3, output, 4 * RECORDS, answer);
    return p;
}

/* A host interface with so many receive paths, all to itself, and another host. */
static void write_rings(unsigned paths)
{
    char *s = text;
    s += sprintf(s, "@router 0 0\n@regs\n1 1 0 0 c300\n@adapter 1\n@regs\n0 0 0 0 0\n1 1 0 0 0\n2 2 0 0 1\n5 5 0 0 7ff\n@paths\n");
    for (unsigned i = 0; i < paths; i++)
        s += sprintf(s, "%x 0 8 %x\n", 16 + 2 * i, 0x80001801 + i);
    sprintf(s, "@adapter 2\n@adapter 3\n@regs\n0 0 0 0 0\n1 1 0 0 0\n2 2 0 0 2\n5 5 0 0 7ff\n@xdomain 0 1\n");
}

static size_t used(void *(*call)(void *))
{
    static unsigned char stack[STACK];
    pthread_attr_t attr;
    pthread_t thread;
    size_t clean = 0;
    memset(stack, 0xa5, STACK);
    if (pthread_attr_init(&attr) || pthread_attr_setstack(&attr, stack, STACK) || pthread_create(&thread, &attr, call, NULL) || pthread_join(thread, NULL)) {
        fprintf(stderr, "no thread\n");
        exit(2);
    }
    pthread_attr_destroy(&attr);
    while (clean < STACK && stack[clean] == 0xa5)
        clean++;
    return STACK - clean;
}

static int too_much;

static void say(const char *name, void *(*call)(void *))
{
    size_t base = used(nothing), all = used(call);
    size_t need = all > base ? all - base : 0;
    /* a call that was refused would say too little */
    int done = answer[TUNNELS_REFUSAL] == 0 && answer[TUNNELS_FOUND] == 1;
    printf("stack of %s: %zu bytes%s\n", name, need, done ? "" : ", but no result");
    too_much |= need > SAID || !done;
}

int main(int argc, char **argv)
{
    FILE *f = argc == 2 ? fopen(argv[1], "rb") : NULL;
    if (!f) {
        fprintf(stderr, "usage: %s worked.txt\n", argv[0]);
        return 2;
    }
    text[fread(text, 1, TUNNELS_MAX_TEXT, f)] = 0;
    fclose(f);
    tunnels_our_descriptions(ours, TUNNELS_OUR_WORDS, answer);
    say("tunnels_text", read_text);
    say("tunnels_load", load);
    say("tunnels_adapter", adapter);
    say("tunnels_parent", parent);
    say("tunnels_walk", walk);
    say("tunnels_discover", discover);
    write_rings(63);
    read_text(NULL);
    say("tunnels_discover, 63 receive paths", discover_rings);
    write_rings(64); /* more than a search notes with little room */
    read_text(NULL);
    say("tunnels_discover, 64 receive paths", discover_rings);
    for (size_t i = 0; i < RECORDS; i++)
        memcpy(text + 8 * i, i == 0 ? "1 0 0 0\n" : "0 0 0 0\n", 8); /* out of order, so that they are sorted */
    say("tunnels_read_dump, 65536 records", read_dump);
    return too_much;
}
