/*
 * Stack that each call takes: it runs on a painted stack of its own, and the
 * deepest byte that lost its paint tells. `stack TEXT` asks about the network in
 * the file, from its first node to its last, and says how large it is. The exit
 * status is 1 where a call takes more than the header says.
 */
#include "splicereel.h"

#include <stdio.h>
#include <string.h>
#include <ucontext.h>

enum {
    STACK = 1 << 20,
    PAINT = 0xA5,
    /* A byte more than the longest text that Read accepts, so that a longer file is refused. */
    TEXT = SPLICEREEL_MAX_TEXT + 1
};

static uint8_t stack[STACK], text[TEXT], net[SPLICEREEL_MAX_NETWORK];
/* What is moved up, the network; and back, what comes of it, or the network where it has no move up. */
static uint8_t up[SPLICEREEL_MAX_NETWORK], back[SPLICEREEL_MAX_NETWORK], output[SPLICEREEL_MAX_NETWORK];
static uint32_t best[SPLICEREEL_MAX_RUNS], previous[SPLICEREEL_MAX_RUNS], told[SPLICEREEL_TOLD];
static uint32_t list[SPLICEREEL_MAX_LIST];
static uint16_t buffer[SPLICEREEL_MAX_RUNS];
static uint8_t marks[SPLICEREEL_MAX_NODES];
static size_t text_length, net_length, back_length, nodes, segments, part[SPLICEREEL_PART];
static ucontext_t here, there;

static void nothing(void) {}
static void read(void) { splicereel_read(text, text_length, net, sizeof net, told); }
static void refused_line(void) { splicereel_refused_line(text, text_length, sizeof net, part); }
static void judge_segment(void) { splicereel_judge_segment(net, net_length, 0, told); }
static void judge_movement(void) { splicereel_judge_movement(net, net_length, 0, 0, told); }
static void route(void) {
    splicereel_route(net, net_length, 0, nodes - 1, 4, best, SPLICEREEL_MAX_RUNS, previous,
                     SPLICEREEL_MAX_RUNS, buffer, SPLICEREEL_MAX_RUNS, 0, told);
}
static void least_stress(void) {
    splicereel_least_stress(net, net_length, 0, nodes - 1, best, SPLICEREEL_MAX_RUNS, previous,
                            SPLICEREEL_MAX_RUNS, buffer, SPLICEREEL_MAX_RUNS, 0, told);
}

static void reach_map(void) {
    splicereel_reach_map(net, net_length, 0, 4, UINT32_MAX, best, SPLICEREEL_MAX_RUNS, previous,
                         SPLICEREEL_MAX_RUNS, list, SPLICEREEL_MAX_LIST, told);
}
static void nearest(void) {
    marks[nodes - 1] = 1;
    splicereel_nearest(net, net_length, 0, 4, marks, SPLICEREEL_MAX_NODES, best, SPLICEREEL_MAX_RUNS,
                       previous, SPLICEREEL_MAX_RUNS, told);
}
static void move_up(void) { splicereel_move_up(up, net_length, output, sizeof output, told); }
static void move_back(void) { splicereel_move_back(back, back_length, output, sizeof output, told); }

/* A network of edition 01 is moved as one of edition 02, which has all that it has. */
static void prepare_moves(void) {
    memcpy(up, net, net_length);
    if (up[1] == 1) {
        up[1]++;
        up[6]--;
    }
    memcpy(back, up, net_length);
    back_length = splicereel_move_up(up, net_length, back, sizeof back, told) == 0 ? told[0] : net_length;
}

/* Bytes of the painted stack that the call used. */
static size_t used_by(void (*call)(void)) {
    memset(stack, PAINT, sizeof stack);
    getcontext(&there);
    there.uc_stack.ss_sp = stack;
    there.uc_stack.ss_size = sizeof stack;
    there.uc_link = &here;
    makecontext(&there, call, 0);
    swapcontext(&here, &there);
    size_t untouched = 0;
    while (untouched < sizeof stack && stack[untouched] == PAINT) untouched++;
    return sizeof stack - untouched;
}

static const struct {
    const char *name;
    void (*call)(void);
} calls[] = {
    {"Read", read},
    {"Refused line", refused_line},
    {"Judge a segment", judge_segment},
    {"Judge a movement", judge_movement},
    {"Route", route},
    {"Least stress", least_stress},
    {"Reach map", reach_map},
    {"Nearest", nearest},
    {"Move up", move_up},
    {"Move back", move_back},
};

/* Prints what each call takes; how many of them take more than they may. */
static int print_calls(size_t most) {
    size_t frame = used_by(nothing);
    int over = 0;
    for (size_t i = 0; i < sizeof calls / sizeof *calls; i++) {
        size_t used = used_by(calls[i].call) - frame;
        printf("%s %zu%s\n", calls[i].name, used, used < most ? "" : ", more than the header says");
        over += used >= most;
    }
    return over;
}

int main(int count, char **arguments) {
    FILE *file = count == 2 ? fopen(arguments[1], "rb") : NULL;
    if (file == NULL) {
        fprintf(stderr, "call it as: stack TEXT, a file with a network text\n");
        return 2;
    }
    text_length = fread(text, 1, sizeof text, file);
    fclose(file);
    if (splicereel_read(text, text_length, net, sizeof net, told) != 0) {
        fprintf(stderr, "stack: the text is refused at line %u\n", (unsigned)told[0]);
        return 1;
    }
    net_length = told[0];
    nodes = (size_t)net[2] << 8 | net[3];
    segments = (size_t)net[4] << 8 | net[5];
    prepare_moves();
    int town = nodes <= SPLICEREEL_TOWN_NODES && segments <= SPLICEREEL_TOWN_SEGMENTS;
    printf("%s of edition %02d, %zu nodes and %zu segments\n", town ? "Town" : "County", net[1], nodes, segments);
    return print_calls(town ? SPLICEREEL_TOWN_STACK : SPLICEREEL_COUNTY_STACK) > 0;
}
