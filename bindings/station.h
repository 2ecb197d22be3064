/* A LocoNet command station and the DCC decoders on its track.
 *
 * The code of each function is proved against its contract in crates/station_c/src/lib.rt. Nothing checks what a
 * caller in C owes. For all functions this is:
 *
 * - No pointer is null, not even if a count is 0.
 * - A pointer points to as many values as the count says. During the call they are the call's alone: no two pointers
 *   point to the same memory, and no other thread uses it. Values behind a pointer to const may be read by others,
 *   and are not changed.
 * - Each pointer is aligned for its type. Each value behind it is initialized, even if the call only writes it, and a
 *   bool is 0 or 1.
 * - A station_layout begins as STATION_NONE, and from then on only these functions change it. It may be moved, but of
 *   two copies only one is used, ever.
 * - A layout is used by one thread at a time.
 * - No function is called from a signal handler, nor after fork() in the child of a program with threads.
 * - malloc, realloc and free belong to one allocator, and align blocks as the C library of Linux does.
 *
 * Each function reports everything else, and then does nothing: a layout that was not made or was ended, a line or a
 * decoder that does not exist, an invalid kind, invalid decoders, out of memory. */
#ifndef STATION_H
#define STATION_H

#include <stdbool.h>
#include <stddef.h>
#include <stdint.h>

/* The version of this header. A program made for one with the same major number and the same or a smaller minor
 * number may be compiled with it. */
#define STATION_VERSION_MAJOR 1
#define STATION_VERSION_MINOR 1
#define STATION_VERSION "1.1.0"

#ifdef __cplusplus
extern "C" {
#endif

/* A layout, or none. Its fields are private. */
typedef struct station_layout {
    void *at;
    bool made;
} station_layout;
#define STATION_NONE { 0, false }

/* The accessory decoder of a module, 1 to 510, if `accessory` is true; otherwise the locomotive decoder with these
 * configuration variables. */
typedef struct station_decoder {
    uint16_t module;
    bool accessory;
    uint8_t cv1, cv17, cv18, cv29;
} station_decoder;

/* One event: a byte on a line; a turn of the track, whose packet decoder i misses if bit i of `missed` is set; or
 * noise, a half-bit of `half` microseconds that belongs to no packet and that only decoder `node` hears. The fields
 * that its kind does not name may hold anything. */
enum { STATION_BYTE = 0, STATION_TURN = 1, STATION_NOISE = 2 };
typedef struct station_event {
    uint64_t missed;
    uint16_t half;
    uint8_t kind, line, byte, node;
} station_event;

/* The answer to an event: nothing; a reply of 4 or 14 bytes, on the line of the byte; a packet of 3 to 6 bytes, on
 * the track; or off, if the track has no power. The rest of `bytes` is zero. */
enum { STATION_QUIET = 0, STATION_REPLY = 1, STATION_PACKET = 2, STATION_OFF = 3 };
typedef struct station_answer {
    uint8_t kind, size, bytes[14];
} station_answer;

/* How a locomotive runs: it is stopped, it was stopped at once, or it runs at `step` of `steps`, 14, 28 or 126. Bit k
 * of `functions` is Fk. */
enum { STATION_STOP = 0, STATION_EMERGENCY = 1, STATION_STEP = 2 };
typedef struct station_motion {
    uint16_t functions;
    uint8_t kind, step, steps;
    bool forward;
} station_motion;

enum {
    STATION_MADE = 0,
    STATION_BAD_LINES = 1,
    STATION_BAD_DECODERS = 2,
    STATION_NO_MEMORY = 3,
    STATION_ALREADY_MADE = 4,
    STATION_BAD_PLAN = 5
};

/* Makes a layout with 1 to 8 lines and up to 64 decoders; there must be none yet. Unless it returns STATION_MADE the
 * layout is unchanged.
 * Owed: `decoders` points to `count` decoders, and a layout that was made is ended once, by station_free. */
uint8_t station_new(station_layout *layout, uint8_t lines, const station_decoder *decoders, size_t count);

/* The same with the decoders of a roster, a text in TOML. If it has a fault the function returns
 * STATION_BAD_DECODERS, and sets `*node` to the decoder at fault, from 1, or to 0 for the whole.
 * Owed: `text` points to `size` bytes, and a layout that was made is ended once, by station_free. */
uint8_t station_read(station_layout *layout, uint8_t lines, const uint8_t *text, size_t size, uint8_t *node);

/* The faults of a roster, by the numbers that `station` prints: the text is not TOML or not UTF-8; a key or a type is
 * wrong; more than 64 decoders; a name; the value of a configuration variable; a module; no decoder; a list of
 * configuration variables. */
enum {
    STATION_NOT_TOML = 1,
    STATION_BAD_SHAPE = 2,
    STATION_TOO_MANY = 3,
    STATION_BAD_NAME = 4,
    STATION_BAD_CV = 5,
    STATION_BAD_MODULE = 6,
    STATION_EMPTY = 7,
    STATION_BAD_CV_LIST = 9
};

/* Finds the first fault of a roster. Returns STATION_MADE if it has none; STATION_BAD_DECODERS if it has one, and sets
 * `*fault` to it, and `*node` to the decoder at fault, from 1, or to 0 for the whole; or STATION_NO_MEMORY.
 * Owed: `text` points to `size` bytes. */
uint8_t station_check(const uint8_t *text, size_t size, uint8_t *fault, uint8_t *node);

/* What a status says, in words without an end of line. This function and the next are the header's own. */
static inline const char *station_status_text(uint8_t status) {
    switch (status) {
    case STATION_MADE: return "the layout was made";
    case STATION_BAD_LINES: return "the lines are not 1 to 8";
    case STATION_BAD_DECODERS: return "a decoder is invalid, or there are more than 64, or the roster has a fault";
    case STATION_NO_MEMORY: return "out of memory";
    case STATION_ALREADY_MADE: return "there is a layout already";
    case STATION_BAD_PLAN: return "the track plan has a fault";
    default: return "no status";
    }
}

/* What a fault of a roster says, in words. */
static inline const char *station_fault_text(uint8_t fault) {
    switch (fault) {
    case STATION_NOT_TOML: return "the text is not TOML, or not UTF-8";
    case STATION_BAD_SHAPE: return "a key is missing or unknown, or a value has another type";
    case STATION_TOO_MANY: return "there are more than 64 decoders";
    case STATION_BAD_NAME: return "the name is not valid, or an earlier decoder has it";
    case STATION_BAD_CV: return "a variable has no valid value";
    case STATION_BAD_MODULE: return "the module is not 1 to 510";
    case STATION_EMPTY: return "there is no decoder";
    case STATION_BAD_CV_LIST: return "the list of variables is not valid";
    default: return "no fault";
    }
}

/* Ends a layout, if there is one. Afterwards there is none.
 * Owed: nothing but the above. */
void station_free(station_layout *layout);

/* Passes a byte to a line. Returns false if there is no layout or no such line.
 * Owed: nothing but the above. */
bool station_byte(station_layout *layout, uint8_t line, uint8_t byte, station_answer *answer);

/* Runs a turn of the track, whose packet decoder i misses if bit i of `missed` is set. Returns false if there is no
 * layout.
 * Owed: nothing but the above. */
bool station_turn(station_layout *layout, uint64_t missed, station_answer *answer);

/* Runs the events in order, and writes each answer at the same index. Returns false, and runs no event, if there is
 * no layout, if `room` is not `count`, or if an event has an invalid kind, or a line or decoder that does not exist.
 * Owed: `events` points to `count` events and `answers` to `room` answers. */
bool station_run(station_layout *layout, const station_event *events, size_t count, station_answer *answers,
    size_t room);

/* Writes how locomotive decoder i runs. Returns false if i is no locomotive decoder, or if there is no layout.
 * Owed: nothing but the above. */
bool station_running(station_layout *layout, size_t i, station_motion *motion);

/* Writes the outputs of accessory decoder i, bit j for output j. Returns false if i is no accessory decoder, or if
 * there is no layout.
 * Owed: nothing but the above. */
bool station_outputs(station_layout *layout, size_t i, uint8_t *outputs);

/* The same as station_read, with the trains and sensors of a track plan, a text in TOML as lbserver --plan reads it, but of
 * any length; its key feedback has no effect. If the roster has no fault and the plan has one, the function returns
 * STATION_BAD_PLAN; lbserver says which.
 * Owed: `roster` points to `roster_size` bytes and `plan` to `plan_size`, and a layout that was made is ended once, by
 * station_free. */
uint8_t station_plan(station_layout *layout, uint8_t lines, const uint8_t *roster, size_t roster_size,
    const uint8_t *plan, size_t plan_size);

/* Lets `micros` microseconds pass in which the decoders do what they do now: while the track has power trains run and
 * turnouts move. No other function takes time or looks at the outputs of turnouts. So call it after each turn, with the
 * time of that turn, 5,796 microseconds for an idle packet and at most 10,740, or with 0: an output that goes on and off
 * between two calls moves nothing. Returns false if there is no layout with a track plan.
 * Owed: nothing but the above. */
bool station_elapse(station_layout *layout, uint32_t micros);

/* Writes whether a part of a train is in the block of a sensor, 1 to 4096, as it is after the last station_elapse. Returns
 * false if no block has it, or if there is no layout with a track plan.
 * Owed: nothing but the above. */
bool station_sensor(station_layout *layout, uint16_t sensor, bool *occupied);

/* Where a train is: the index in the plan of the block of its front, from 0, how far the front is from end A of it in
 * millimetres, and whether it faces end B; the block of its rear. `speed` is in millimetres a second, and
 * `derailed_at` the switch of the turnout that derailed it, or 0. */
typedef struct station_train {
    uint32_t front, speed;
    uint16_t derailed_at;
    uint8_t block, rear_block;
    bool faces_b;
} station_train;

/* Writes where train i of the plan is, from 0. Returns false if there is no such train, or if there is no layout with a
 * track plan.
 * Owed: nothing but the above. */
bool station_train_of(station_layout *layout, size_t i, station_train *train);

/* A LocoNet message of 2 to 14 bytes, the check byte the last. The rest of `bytes` is zero. */
typedef struct station_message {
    uint8_t size, bytes[14];
} station_message;

/* Writes any message: its body, which is all of it but the check byte. Returns false, and writes nothing, unless it is
 * an opcode and as many bytes below 128 as it requires, and the message has at most 14 bytes.
 * Owed: `body` points to `count` bytes. */
bool station_message_of(const uint8_t *body, size_t count, station_message *message);

/* The messages of layout programs, by their opcodes. A function that returns a bool returns false, and writes nothing,
 * if a byte is above 127 or a number out of its range. Speed 0 stops, 1 stops at once, and 2 to 127 are steps 1 to 126.
 * Bit 5 of DIRF is reverse, bit 4 F0, bits 0 to 3 F1 to F4; bits 0 to 3 of SND are F5 to F8. Turnouts are 1 to 2048,
 * addresses 1 to 10239. The same slot twice is taken into use, destination 0 dispatches it, and source 0 takes the
 * dispatched one.
 * Owed: nothing but the above. */
void station_opc_gpoff(station_message *message);
void station_opc_gpon(station_message *message);
void station_opc_idle(station_message *message);
bool station_opc_loco_spd(uint8_t slot, uint8_t spd, station_message *message);
bool station_opc_loco_dirf(uint8_t slot, uint8_t dirf, station_message *message);
bool station_opc_loco_snd(uint8_t slot, uint8_t snd, station_message *message);
bool station_opc_sw_req(uint16_t turnout, bool closed, bool on, station_message *message);
bool station_opc_slot_stat1(uint8_t slot, uint8_t stat, station_message *message);
bool station_opc_move_slots(uint8_t src, uint8_t dest, station_message *message);
bool station_opc_rq_sl_data(uint8_t slot, station_message *message);
bool station_opc_loco_adr(uint16_t address, station_message *message);

/* OPC_WR_SL_DATA. The 11 fields are slot, STAT1, ADR, SPD, DIRF, TRK, SS2, ADR2, SND, ID1 and ID2; false if there are
 * more or less.
 * Owed: `fields` points to `count` bytes. */
bool station_opc_wr_sl_data(const uint8_t *fields, size_t count, station_message *message);

#ifdef __cplusplus
}
#endif
#endif
