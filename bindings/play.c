/* play ROSTER SCRIPT LINES: plays a script on the layout of a roster, and prints what `station replay` prints.
 *
 * play sizes: prints the sizes of the structs of station.h and where their fields stand.
 *
 * play numbers: prints its kinds and statuses.
 *
 * play texts: prints what it says of each status, and of each fault of a roster.
 *
 * play messages: prints one message of each kind, and what is refused.
 *
 * play plan ROSTER PLAN: drives address 3 over a track plan, and prints where train 0 is and which sensors are high. */
#include <stdio.h>
#include <stdlib.h>
#include <string.h>

#include "station.h"

enum { MOST_DECODERS = 64, MOST_TEXT = 262144, MOST_TURNS = 4096 };

/* What the roster says of a decoder beside what the station keeps: its name, and how its line begins. */
typedef struct named {
    char name[17];
    unsigned cv[30];
    unsigned module;
} named;

static named nodes[MOST_DECODERS];
static size_t count;

/* Takes names, variables and modules from a roster whose pairs and keys stand as in examples/. */
static void read_names(const char *text) {
    for (const char *at = text; *at; at++) {
        unsigned number, value;
        if (at > text && at[-1] != '\n' && *at != '[')
            continue;
        if (strncmp(at, "[[node]]", 8) == 0 && count < MOST_DECODERS) {
            nodes[count++].cv[17] = 192;
            at += 7;
        } else if (count && sscanf(at, "name = \"%16[^\"]", nodes[count - 1].name) != 1
                && sscanf(at, "module = %u", &nodes[count - 1].module) != 1
                && (sscanf(at, "cv%u = %u", &number, &value) == 2 || sscanf(at, "[%u, %u]", &number, &value) == 2)
                && number < 30)
            nodes[count - 1].cv[number] = value;
    }
}

static char *read_file(const char *name, size_t *size) {
    static char text[2][MOST_TEXT];
    static int next;
    char *into = text[next++];
    FILE *file = fopen(name, "rb");
    if (!file) {
        fprintf(stderr, "play: cannot read %s\n", name);
        exit(2);
    }
    *size = fread(into, 1, MOST_TEXT - 1, file);
    if (fgetc(file) != EOF) {
        fprintf(stderr, "play: %s is too long\n", name);
        exit(2);
    }
    fclose(file);
    return into;
}

static void print_bytes(const char *what, unsigned long at, const station_answer *answer) {
    printf("%s %lu", what, at);
    for (unsigned i = 0; i < answer->size; i++)
        printf(" %02X", answer->bytes[i]);
    printf("\n");
}

static void print_answer(const station_event *event, const station_answer *answer, unsigned long *turns) {
    if (event->kind == STATION_TURN)
        ++*turns;
    if (answer->kind == STATION_REPLY)
        print_bytes("reply", event->line, answer);
    if (answer->kind == STATION_PACKET)
        print_bytes("track", *turns, answer);
    if (answer->kind == STATION_OFF)
        printf("track %lu off\n", *turns);
}

static void print_bits(unsigned bits, unsigned many) {
    for (unsigned k = 0; k < many; k++)
        putchar('0' + (bits >> k & 1));
    putchar('\n');
}

static void print_address(const named *node) {
    if (node->cv[29] & 32)
        printf("long %u", (node->cv[17] - 192) * 256 + node->cv[18]);
    else
        printf("short %u", node->cv[1]);
}

static void print_nodes(station_layout *layout) {
    for (size_t i = 0; i < count; i++) {
        station_motion motion = { 0 };
        uint8_t outputs = 0;
        printf("node %s ", nodes[i].name);
        if (station_running(layout, i, &motion)) {
            print_address(&nodes[i]);
            if (motion.kind == STATION_STEP)
                printf(" step %u of %u", motion.step, motion.steps == 126 ? 128 : motion.steps);
            else
                printf(motion.kind == STATION_STOP ? " stop" : " emergency");
            printf(" %s F ", motion.forward ? "forward" : "reverse");
            print_bits(motion.functions, 13);
        } else if (station_outputs(layout, i, &outputs)) {
            printf("module %u outputs ", nodes[i].module);
            print_bits(outputs, 8);
        }
    }
}

/* The events of a line of the script are run as one list. */
static void play(station_layout *layout, const char *line, unsigned long *turns) {
    static station_event events[MOST_TURNS];
    static station_answer answers[MOST_TURNS];
    station_event event = { 0 };
    size_t many = 0;
    char *rest;
    if (strncmp(line, "line ", 5) == 0) {
        event.line = (uint8_t)strtoul(line + 5, &rest, 10);
        for (char *next; event.byte = (uint8_t)strtoul(rest, &next, 16), next != rest && many < MOST_TURNS; rest = next)
            events[many++] = event;
    } else if (strncmp(line, "turn ", 5) == 0) {
        unsigned long wanted = strtoul(line + 5, &rest, 10);
        char *missed = strstr(rest, "miss");
        event.kind = STATION_TURN;
        if (missed)
            for (char *next, *from = missed + 4;; from = next) {
                unsigned long i = strtoul(from, &next, 10);
                if (next == from)
                    break;
                event.missed |= (uint64_t)1 << i;
            }
        while (many < wanted && many < MOST_TURNS)
            events[many++] = event;
    }
    if (!station_run(layout, events, many, answers, many)) {
        fprintf(stderr, "play: not played: %s\n", line);
        exit(2);
    }
    for (size_t i = 0; i < many; i++)
        print_answer(&events[i], &answers[i], turns);
}

#define FIELD(type, field) printf("%s.%s %zu\n", #type, #field, offsetof(type, field))

static void print_sizes(void) {
    printf("station_layout %zu\nstation_decoder %zu\n", sizeof(station_layout), sizeof(station_decoder));
    printf("station_event %zu\nstation_answer %zu\n", sizeof(station_event), sizeof(station_answer));
    printf("station_motion %zu\nstation_train %zu\n", sizeof(station_motion), sizeof(station_train));
    FIELD(station_layout, at), FIELD(station_layout, made);
    FIELD(station_decoder, module), FIELD(station_decoder, accessory), FIELD(station_decoder, cv1);
    FIELD(station_decoder, cv17), FIELD(station_decoder, cv18), FIELD(station_decoder, cv29);
    FIELD(station_event, missed), FIELD(station_event, half), FIELD(station_event, kind);
    FIELD(station_event, line), FIELD(station_event, byte), FIELD(station_event, node);
    FIELD(station_answer, kind), FIELD(station_answer, size), FIELD(station_answer, bytes);
    FIELD(station_motion, functions), FIELD(station_motion, kind), FIELD(station_motion, step);
    FIELD(station_motion, steps), FIELD(station_motion, forward);
    FIELD(station_train, front), FIELD(station_train, speed), FIELD(station_train, derailed_at);
    FIELD(station_train, block), FIELD(station_train, rear_block), FIELD(station_train, faces_b);
}

#define NUMBER(name) printf("%s %d\n", #name, STATION_##name)

static void print_numbers(void) {
    NUMBER(BYTE), NUMBER(TURN), NUMBER(NOISE);
    NUMBER(QUIET), NUMBER(REPLY), NUMBER(PACKET), NUMBER(OFF);
    NUMBER(STOP), NUMBER(EMERGENCY), NUMBER(STEP);
    NUMBER(MADE), NUMBER(BAD_LINES), NUMBER(BAD_DECODERS), NUMBER(NO_MEMORY), NUMBER(ALREADY_MADE);
    NUMBER(BAD_PLAN);
}

static void print_texts(void) {
    for (uint8_t status = 0; status <= STATION_BAD_PLAN + 1; status++)
        printf("%u %s\n", status, station_status_text(status));
    for (uint8_t fault = 0; fault <= STATION_BAD_CV_LIST; fault++)
        printf("%u %s\n", fault, station_fault_text(fault));
}

/* A message, or that it was refused and left as it was. */
static void print_message(const char *name, bool done, const station_message *message) {
    printf("%s", name);
    if (!done)
        printf(" refused");
    for (unsigned i = 0; i < message->size; i++)
        printf(" %02X", message->bytes[i]);
    printf("\n");
}

static void print_messages(void) {
    const uint8_t fields[] = { 1, 0x33, 3, 64, 0x20, 7, 0, 0, 1, 0, 0 };
    const uint8_t body[] = { 0xED, 0x0B, 0x7F, 0x30, 0x01, 0x0B, 0x23, 0, 0, 0 }, no_body[] = { 0xA0, 1 };
    station_message sent = { 0 };
    station_opc_gpoff(&sent), print_message("GPOFF", true, &sent);
    station_opc_gpon(&sent), print_message("GPON", true, &sent);
    station_opc_idle(&sent), print_message("IDLE", true, &sent);
    print_message("LOCO_SPD", station_opc_loco_spd(1, 64, &sent), &sent);
    print_message("LOCO_SPD", station_opc_loco_spd(1, 128, &sent), &sent);
    print_message("LOCO_DIRF", station_opc_loco_dirf(1, 0x30, &sent), &sent);
    print_message("LOCO_SND", station_opc_loco_snd(1, 5, &sent), &sent);
    print_message("SW_REQ", station_opc_sw_req(1, true, true, &sent), &sent);
    print_message("SW_REQ", station_opc_sw_req(2048, false, true, &sent), &sent);
    print_message("SW_REQ", station_opc_sw_req(0, true, true, &sent), &sent);
    print_message("SW_REQ", station_opc_sw_req(2049, true, true, &sent), &sent);
    print_message("SLOT_STAT1", station_opc_slot_stat1(1, 0x13, &sent), &sent);
    print_message("MOVE_SLOTS", station_opc_move_slots(1, 2, &sent), &sent);
    print_message("RQ_SL_DATA", station_opc_rq_sl_data(123, &sent), &sent);
    print_message("LOCO_ADR", station_opc_loco_adr(10239, &sent), &sent);
    print_message("LOCO_ADR", station_opc_loco_adr(10240, &sent), &sent);
    print_message("WR_SL_DATA", station_opc_wr_sl_data(fields, sizeof fields, &sent), &sent);
    print_message("WR_SL_DATA", station_opc_wr_sl_data(fields, sizeof fields - 1, &sent), &sent);
    print_message("MESSAGE", station_message_of(body, sizeof body, &sent), &sent);
    print_message("MESSAGE", station_message_of(no_body, sizeof no_body, &sent), &sent);
}

/* Where train 0 is, and which of these sensors are high. */
static void print_train(station_layout *layout, const uint16_t *sensors, size_t many) {
    station_train train = { 0 };
    bool occupied = false;
    if (!station_train_of(layout, 0, &train))
        printf("no train\n");
    else
        printf("block %u, %u mm, faces %c, rear in %u, %u mm/s, sensors", train.block, train.front,
            train.faces_b ? 'b' : 'a', train.rear_block, train.speed);
    for (size_t i = 0; i < many; i++)
        if (station_sensor(layout, sensors[i], &occupied) && occupied)
            printf(" %u", sensors[i]);
    printf("\n");
}

/* Drives address 3 at its last step over a plan, and says where train 0 is after these times. */
static int run_plan(const char *roster_file, const char *plan_file) {
    static const uint8_t driving[] = { 0xBF, 0, 3, 0x43, 0x83, 0x7C, 0xBA, 1, 1, 0x45, 0xA0, 1, 0x7F, 0x21 };
    static const uint32_t micros[] = { 0, 1000000, 1000000, 1, 1199998, 1 };
    static const uint16_t sensors[] = { 1, 2, 3, 6 };
    station_layout layout = STATION_NONE;
    station_answer answer;
    size_t roster_size, plan_size;
    const uint8_t *roster = (const uint8_t *)read_file(roster_file, &roster_size);
    const uint8_t *plan = (const uint8_t *)read_file(plan_file, &plan_size);
    uint8_t status = station_plan(&layout, 1, roster, roster_size, plan, plan_size);
    if (status != STATION_MADE) {
        printf("%s\n", station_status_text(status));
        return 2;
    }
    for (size_t i = 0; i < sizeof driving; i++)
        station_byte(&layout, 0, driving[i], &answer);
    for (int turn = 0; turn < 16; turn++)
        station_turn(&layout, 0, &answer);
    for (size_t i = 0; i < sizeof micros / sizeof *micros; i++) {
        station_elapse(&layout, micros[i]);
        print_train(&layout, sensors, sizeof sensors / sizeof *sensors);
    }
    station_free(&layout);
    return station_elapse(&layout, 1);
}

/* What is wrong with a roster. */
static const char *fault_of(const char *roster, size_t size) {
    uint8_t fault = 0, node = 0;
    uint8_t status = station_check((const uint8_t *)roster, size, &fault, &node);
    return status == STATION_BAD_DECODERS ? station_fault_text(fault) : station_status_text(status);
}

int main(int argc, char **argv) {
    if (argc == 2 && strcmp(argv[1], "sizes") == 0) {
        print_sizes();
        return 0;
    }
    if (argc == 2 && strcmp(argv[1], "numbers") == 0) {
        print_numbers();
        return 0;
    }
    if (argc == 2 && strcmp(argv[1], "texts") == 0) {
        print_texts();
        return 0;
    }
    if (argc == 2 && strcmp(argv[1], "messages") == 0) {
        print_messages();
        return 0;
    }
    if (argc == 4 && strcmp(argv[1], "plan") == 0)
        return run_plan(argv[2], argv[3]);
    if (argc != 4) {
        fprintf(stderr, "usage: play ROSTER SCRIPT LINES | play plan ROSTER PLAN | play sizes | play numbers | play texts | play messages\n");
        return 2;
    }
    size_t size;
    char *roster = read_file(argv[1], &size);
    station_layout layout = STATION_NONE;
    uint8_t node = 0;
    uint8_t lines = (uint8_t)atoi(argv[3]);
    uint8_t status = station_read(&layout, lines, (const uint8_t *)roster, size, &node);
    if (status == STATION_BAD_DECODERS) {
        fprintf(stderr, "play: decoder %u: %s\n", node, fault_of(roster, size));
        return 2;
    }
    if (status != STATION_MADE) {
        fprintf(stderr, "play: %s\n", station_status_text(status));
        return 2;
    }
    read_names(roster);
    unsigned long turns = 0;
    for (char *line = strtok(read_file(argv[2], &size), "\n"); line; line = strtok(NULL, "\n"))
        if (strncmp(line, "show", 4) == 0)
            print_nodes(&layout);
        else if (line[0] != '#')
            play(&layout, line, &turns);
    station_free(&layout);
    return 0;
}
