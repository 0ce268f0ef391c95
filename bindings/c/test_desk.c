/* The calls on a desk against the library, with their refusals. */
#include "test.h"

static uint8_t desk[NAREPHON_DESK], kept_desk[NAREPHON_DESK];
static uint8_t record[NAREPHON_RECORD], old[NAREPHON_OLD_RECORD], bank[NAREPHON_BANK];
static uint16_t dots[NAREPHON_DOTS];

/* A seat's bytes: whether it is held, its number, its record. */
#define SEAT (1 + 2 + NAREPHON_RECORD)

/* Members, many of them with a byte of another's number. */
static const uint16_t members[NAREPHON_SEATS] = {
    0, 65535, 0x0007, 0x0700, 0x0107, 0x0701, 0x0001, 0x0100, 0x0101, 0x00FF, 0xFF00, 0x00FE, 0x8000, 0x0080, 0x7FFF, 0xFFFE,
};

/* One who is none of them. */
#define STRANGER 0x0707

static uint8_t *seat(size_t number) {
    return desk + number * SEAT;
}

/* The record in a seat. */
static uint8_t *on_seat(size_t number) {
    return seat(number) + 3;
}

static void keep_desk(void) {
    memcpy(kept_desk, desk, sizeof desk);
}

static void desk_kept(const char *what) {
    same(what, (uint32_t)memcmp(kept_desk, desk, sizeof desk), 0);
}

static void desk_full(void) {
    same("start", narephon_desk_start(desk, sizeof desk), NAREPHON_DONE);
    for (size_t i = 0; i < NAREPHON_SEATS; i++)
        same("open", narephon_desk_open(desk, sizeof desk, members[i]), NAREPHON_DONE);
}

static void desk_write(uint16_t member, uint8_t number, uint8_t value) {
    same("write", narephon_desk_write_register(desk, sizeof desk, member, number, value), NAREPHON_DONE);
}

static void desk_reads(uint16_t member, uint8_t number, uint8_t wanted) {
    uint8_t value = (uint8_t)~wanted;
    same("read", narephon_desk_read_register(desk, sizeof desk, member, number, &value), NAREPHON_DONE);
    same("what is read", value, wanted);
}

static uint8_t desk_draw(uint16_t member, size_t bank_len, uint32_t line, size_t dots_len) {
    return narephon_desk_draw(desk, sizeof desk, member, bank, bank_len, bank, bank_len, line, dots, dots_len);
}

/* Sixteen seats are opened one after the other, each with the record of the reset state; then there is none. */
static void seats(void) {
    memset(desk, 7, sizeof desk);
    keep_desk();
    same("start, short", narephon_desk_start(desk, sizeof desk - 1), NAREPHON_BUFFER_LENGTH);
    desk_kept("desk of start kept");
    desk_full();
    same("reset", narephon_reset(record, sizeof record), NAREPHON_DONE);
    for (size_t i = 0; i < NAREPHON_SEATS; i++) {
        same("held", seat(i)[0], 1);
        same("number", seat(i)[1] * 256u + seat(i)[2], members[i]);
        same("record", (uint32_t)memcmp(on_seat(i), record, sizeof record), 0);
    }
    keep_desk();
    same("open, full", narephon_desk_open(desk, sizeof desk, STRANGER), NAREPHON_DESK_FULL);
    for (size_t i = 0; i < NAREPHON_SEATS; i++)
        same("open, seated", narephon_desk_open(desk, sizeof desk, members[i]), NAREPHON_ALREADY_OPEN);
    desk_kept("full desk kept");
    same("start", narephon_desk_start(desk, sizeof desk), NAREPHON_DONE);
    for (size_t i = 0; i < sizeof desk; i++) same("started", desk[i], 0);
}

/* A seat that is closed is all 0, its last colour too, and is the next that is opened. */
static void closed(void) {
    desk_full();
    desk_write(members[3], 0x14, 7);
    seat(3)[SEAT - 1] = 7;
    keep_desk();
    same("close", narephon_desk_close(desk, sizeof desk, members[3]), NAREPHON_DONE);
    memset(kept_desk + 3 * SEAT, 0, SEAT);
    desk_kept("other seats kept");
    same("close, closed", narephon_desk_close(desk, sizeof desk, members[3]), NAREPHON_NOT_OPEN);
    desk_kept("desk kept");
    same("open", narephon_desk_open(desk, sizeof desk, STRANGER), NAREPHON_DONE);
    same("number", seat(3)[1] * 256u + seat(3)[2], STRANGER);
    desk_reads(STRANGER, 0x14, 0xE3);
}

/* Each member's registers, ports and frame are that member's own: $14, the border and the frame stand at 3, 35 and 39. */
static void own_states(void) {
    uint8_t value = 99;
    desk_full();
    keep_desk();
    for (uint8_t i = 0; i < NAREPHON_SEATS; i++) {
        desk_write(members[i], 0x14, i);
        same("port", narephon_desk_write_port(desk, sizeof desk, members[i], 0xFE, i), NAREPHON_DONE);
        same("frame", narephon_desk_next_frame(desk, sizeof desk, members[i]), NAREPHON_DONE);
        uint8_t *own = kept_desk + i * SEAT + 3;
        own[3] = i;
        own[35] = i % 8;
        own[39] = 1;
        desk_kept("nothing else");
    }
    for (uint8_t i = 0; i < NAREPHON_SEATS; i++) desk_reads(members[i], 0x14, i);
    same("read of $FF3B", narephon_desk_read_port(desk, sizeof desk, 65535, 0xFF3B, &value), NAREPHON_DONE);
    same("its value", value, 0);
    same("mask 5", narephon_desk_write_register(desk, sizeof desk, 0, 0x42, 5), NAREPHON_OUT_OF_BOUNDS);
    same("register $00", narephon_desk_write_register(desk, sizeof desk, 0, 0x00, 0), NAREPHON_NO_REGISTER);
    same("select 128", narephon_desk_write_port(desk, sizeof desk, 0, 0xBF3B, 128), NAREPHON_OUT_OF_BOUNDS);
    same("port $FD", narephon_desk_write_port(desk, sizeof desk, 0, 0xFD, 0), NAREPHON_NO_REGISTER);
    value = 99;
    same("read of $FE", narephon_desk_read_port(desk, sizeof desk, 0, 0xFE, &value), NAREPHON_NO_REGISTER);
    same("its value", value, 0);
    value = 99;
    same("read of $00", narephon_desk_read_register(desk, sizeof desk, 0, 0x00, &value), NAREPHON_NO_REGISTER);
    same("its value", value, 0);
    desk_kept("desk kept");
}

/* Two members have half a colour each; neither half meets the other's byte. */
static void two_halves(void) {
    desk_full();
    desk_write(0x0007, 0x44, 0xE3);
    desk_write(0x0700, 0x44, 0x1C);
    desk_reads(0x0007, 0x40, 0);
    desk_write(0x0700, 0x44, 1);
    desk_reads(0x0700, 0x40, 1);
    desk_reads(0x0007, 0x40, 0);
    same("second half 2", narephon_desk_write_register(desk, sizeof desk, 0x0007, 0x44, 2), NAREPHON_OUT_OF_BOUNDS);
    desk_write(0x0007, 0x44, 0);
    desk_write(0x0007, 0x40, 0);
    desk_write(0x0700, 0x40, 0);
    desk_reads(0x0007, 0x41, 0xE3);
    desk_reads(0x0007, 0x44, 0);
    desk_reads(0x0700, 0x41, 0x1C);
    desk_reads(0x0700, 0x44, 1);
}

/* Line 0 is border, red for one member; then the refusals of a line from the last of their order on, and the line stays. */
static void desk_lines(void) {
    desk_full();
    desk_write(65535, 0x40, 16);
    desk_write(65535, 0x41, 0xE0);
    same("draw", desk_draw(65535, sizeof bank, 0, NAREPHON_DOTS), NAREPHON_DONE);
    for (size_t i = 0; i < NAREPHON_DOTS; i++) same("red", dots[i], 448);
    same("draw", desk_draw(0, sizeof bank, 0, NAREPHON_DOTS), NAREPHON_DONE);
    for (size_t i = 0; i < NAREPHON_DOTS; i++) same("black", dots[i], 0);
    desk_write(0, 0x15, 0x80);
    desk_write(0, 0x6B, 0x80);
    for (size_t i = 0; i < NAREPHON_DOTS; i++) dots[i] = 1;
    same("LoRes with tiles", desk_draw(0, sizeof bank, 255, NAREPHON_DOTS), NAREPHON_LORES_WITH_TILES);
    same("short line", desk_draw(0, sizeof bank, 255, 639), NAREPHON_BUFFER_LENGTH);
    same("short bank", desk_draw(0, 16383, 255, 639), NAREPHON_BANK_LENGTH);
    same("line 256", desk_draw(0, 16383, 256, 639), NAREPHON_NO_LINE);
    same("no seat", desk_draw(STRANGER, 16383, 256, 639), NAREPHON_NOT_OPEN);
    desk[0] = 2;
    same("no desk", desk_draw(STRANGER, 16383, 256, 639), NAREPHON_BAD_DESK);
    for (size_t i = 0; i < NAREPHON_DOTS; i++) same("line kept", dots[i], 1);
}

/* Every call that finds its member refuses by one reply, bad arguments or not; desk and line stay, and what is read is 0. */
static void all_refuse(const char *what, size_t desk_len, uint16_t member, uint8_t reply) {
    uint8_t value = 99, port_value = 99;
    keep_desk();
    for (size_t i = 0; i < NAREPHON_DOTS; i++) dots[i] = 1;
    same(what, narephon_desk_close(desk, desk_len, member), reply);
    same(what, narephon_desk_next_frame(desk, desk_len, member), reply);
    same(what, narephon_desk_write_register(desk, desk_len, member, 0x14, 7), reply);
    same(what, narephon_desk_write_register(desk, desk_len, member, 0x00, 7), reply);
    same(what, narephon_desk_write_port(desk, desk_len, member, 0xFE, 2), reply);
    same(what, narephon_desk_write_port(desk, desk_len, member, 0xBF3B, 128), reply);
    same(what, narephon_desk_read_register(desk, desk_len, member, 0x14, &value), reply);
    same(what, narephon_desk_read_port(desk, desk_len, member, 0xFF3B, &port_value), reply);
    same(what, narephon_desk_draw(desk, desk_len, member, bank, sizeof bank, bank, sizeof bank, 0, dots, NAREPHON_DOTS),
         reply);
    same("read, refused", value, 0);
    same("port, refused", port_value, 0);
    for (size_t i = 0; i < NAREPHON_DOTS; i++) same("line kept", dots[i], 1);
    desk_kept(what);
}

static void no_desk(const char *what, size_t desk_len) {
    for (size_t i = 0; i < NAREPHON_SEATS; i++) {
        all_refuse(what, desk_len, members[i], NAREPHON_BAD_DESK);
        same(what, narephon_desk_open(desk, desk_len, members[i]), NAREPHON_BAD_DESK);
    }
    all_refuse(what, desk_len, STRANGER, NAREPHON_BAD_DESK);
    same(what, narephon_desk_open(desk, desk_len, STRANGER), NAREPHON_BAD_DESK);
    desk_kept(what);
}

static void no_desk_with(const char *what, size_t at, uint8_t byte) {
    uint8_t own = desk[at];
    desk[at] = byte;
    no_desk(what, sizeof desk);
    desk[at] = own;
}

/* An old record in a seat, and two bytes behind it. */
static void put_old(size_t number) {
    uint32_t place = 99;
    same("reset", narephon_reset(record, sizeof record), NAREPHON_DONE);
    same("back", narephon_move_back(record, sizeof record, old, sizeof old, &place), NAREPHON_DONE);
    memset(on_seat(number), 0, NAREPHON_RECORD);
    memcpy(on_seat(number), old, sizeof old);
}

/* What is no desk, in each seat: on a full one the held byte, a number twice, a version, a bad field; on an empty one a byte. */
static void no_desks(void) {
    desk_full();
    all_refuse("no seat", sizeof desk, STRANGER, NAREPHON_NOT_OPEN);
    no_desk("short desk", sizeof desk - 1);
    no_desk("desk of a seat", SEAT);
    no_desk("empty buffer", 0);
    for (size_t i = 0; i < NAREPHON_SEATS; i++) {
        size_t first = i * SEAT;
        no_desk_with("held byte 0", first, 0);
        no_desk_with("held byte 2", first, 2);
        no_desk_with("version 1", first + 3 + 2, 1);
        no_desk_with("border 8", first + 3 + 35, 8);
        no_desk_with("last colour", first + SEAT - 2, 2);
    }
    no_desk_with("65535 twice", 15 * SEAT + 2, 0xFF);
    no_desk_with("7 twice", 4 * SEAT + 1, 0x00);
    put_old(5);
    no_desk("old record", sizeof desk);
    same("start", narephon_desk_start(desk, sizeof desk), NAREPHON_DONE);
    all_refuse("nobody", sizeof desk, 0, NAREPHON_NOT_OPEN);
    for (size_t i = 0; i < NAREPHON_SEATS; i++) {
        no_desk_with("held, no record", i * SEAT, 1);
        no_desk_with("number in a free seat", i * SEAT + 2, 1);
        no_desk_with("last byte of a free seat", i * SEAT + SEAT - 1, 1);
    }
}

int main(void) {
    seats();
    closed();
    own_states();
    two_halves();
    desk_lines();
    no_desks();
    return ended("c, desk");
}
