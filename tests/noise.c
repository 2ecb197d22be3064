/* noise TURNS: plays so many turns on a layout of 64 locomotives, and before each of them noise that leaves each receiver
 * in the middle of a packet, so that it hears the next one half by half. Prints how many halves they heard in turns. */
#include <stdio.h>
#include <stdlib.h>

#include "station.h"

enum { DECODERS = 64, ONES = 18, HALVES = ONES + 1 };

static station_layout layout = STATION_NONE;
static station_decoder decoders[DECODERS];
static station_event noise[HALVES * DECODERS];
static station_answer answers[HALVES * DECODERS];

static void owed(bool done, const char *what) {
    if (!done) {
        fprintf(stderr, "noise: %s\n", what);
        exit(1);
    }
}

/* Behind a packet 18 one halves are a preamble, and the half of a zero begins a packet. */
static void make_noise(void) {
    for (size_t i = 0; i < HALVES * DECODERS; i++)
        noise[i] = (station_event){ .kind = STATION_NOISE, .node = i / HALVES, .half = i % HALVES < ONES ? 58 : 100 };
}

int main(int count, char **words) {
    /* Power comes on, and the slots of the addresses 1 and 2 are refreshed. */
    static const uint8_t bytes[] = { 0x83, 0x7C, 0xBF, 0, 1, 0x41, 0xBA, 1, 1, 0x45, 0xBF, 0, 2, 0x42, 0xBA, 2, 2, 0x45 };
    unsigned long turns = count == 2 ? strtoul(words[1], 0, 10) : 0, halves = 0;
    station_answer answer;

    for (size_t i = 0; i < DECODERS; i++)
        decoders[i] = (station_decoder){ .cv1 = i + 1, .cv29 = 2 };
    make_noise();
    owed(station_new(&layout, 1, decoders, DECODERS) == STATION_MADE, "no layout");
    for (size_t i = 0; i < sizeof bytes; i++)
        owed(station_byte(&layout, 0, bytes[i], &answer), "no byte");
    owed(station_turn(&layout, 0, &answer), "no turn");
    for (unsigned long turn = 0; turn < turns; turn++) {
        owed(station_run(&layout, noise, HALVES * DECODERS, answers, HALVES * DECODERS), "no noise");
        owed(station_turn(&layout, 0, &answer) && answer.kind == STATION_PACKET, "no packet");
        halves += DECODERS * 2 * (15 + 9 * answer.size);
    }
    printf("%lu\n", halves);
    station_free(&layout);
    return 0;
}
