/* The calls by a trace against the library, with their refusals. */
#include "test.h"

static uint8_t record[NAREPHON_RECORD], old[NAREPHON_OLD_RECORD], kept[NAREPHON_RECORD], bank[NAREPHON_BANK];
static uint16_t line_dots[NAREPHON_DOTS], plain_dots[NAREPHON_DOTS];
static uint16_t dots[NAREPHON_FRAME_DOTS], places[NAREPHON_LINES];
static uint8_t replies[NAREPHON_LINES];
static uint32_t place;

/* What a dot, a reply and a place are before a call: no call draws or answers it. */
#define MARK 0xAAAA
#define MARK_BYTE 0xAA

/* A trace that is being made. */
static uint8_t trace[3 + 4 * 512];
static size_t trace_len;

/* The number of bytes following, and the version. */
static void counted(void) {
    trace[0] = (uint8_t)((trace_len - 2) / 256);
    trace[1] = (uint8_t)((trace_len - 2) % 256);
    trace[2] = 1;
}

static void no_entries(void) {
    trace_len = 3;
    counted();
}

static void entry(uint8_t line, uint8_t kind, uint8_t number, uint8_t byte) {
    const uint8_t bytes[4] = {line, kind, number, byte};
    memcpy(trace + trace_len, bytes, sizeof bytes);
    trace_len += sizeof bytes;
    counted();
}

static void reset(void) {
    same("reset", narephon_reset(record, sizeof record), NAREPHON_DONE);
    memcpy(kept, record, sizeof record);
}

/* A line by the trace; a refusal leaves it, and nothing else does. The record stays. */
static uint8_t traced_of(const uint8_t *bytes, size_t record_len, size_t bank_len, uint32_t line, size_t dots_len) {
    size_t marked = 0;
    place = 99;
    for (size_t i = 0; i < NAREPHON_DOTS; i++) line_dots[i] = MARK;
    uint8_t reply = narephon_draw_traced(bytes, record_len, trace, trace_len, bank, bank_len, bank, bank_len,
                                         line, line_dots, dots_len, &place);
    for (size_t i = 0; i < NAREPHON_DOTS; i++) marked += line_dots[i] == MARK;
    same("dots left", (uint32_t)marked, reply == NAREPHON_DONE ? 0 : NAREPHON_DOTS);
    same("record kept", (uint32_t)memcmp(kept, record, sizeof record), 0);
    return reply;
}

static uint8_t traced(uint32_t line) {
    return traced_of(record, sizeof record, sizeof bank, line, NAREPHON_DOTS);
}

/* All lines by the trace. */
static uint8_t carried_of(const uint8_t *bytes, size_t record_len, size_t bank_len,
                          size_t dots_len, size_t replies_len, size_t places_len) {
    for (size_t i = 0; i < NAREPHON_FRAME_DOTS; i++) dots[i] = MARK;
    memset(replies, MARK_BYTE, sizeof replies);
    memset(places, MARK_BYTE, sizeof places);
    uint8_t reply = narephon_draw_carried(bytes, record_len, trace, trace_len, bank, bank_len, bank, bank_len,
                                          dots, dots_len, replies, replies_len, places, places_len);
    same("record kept", (uint32_t)memcmp(kept, record, sizeof record), 0);
    return reply;
}

static uint8_t carried(void) {
    return carried_of(record, sizeof record, sizeof bank, NAREPHON_FRAME_DOTS, NAREPHON_LINES, NAREPHON_LINES);
}

/* Nothing of what is lent for writing has changed. */
static void all_left(const char *what) {
    size_t changed = 0;
    for (size_t i = 0; i < NAREPHON_FRAME_DOTS; i++) changed += dots[i] != MARK;
    for (size_t i = 0; i < NAREPHON_LINES; i++) changed += (replies[i] != MARK_BYTE) + (places[i] != MARK);
    same(what, (uint32_t)changed, 0);
}

/* Each carried line is what it is alone: its dots, its reply and its place. */
static void each_alone(const char *what) {
    same(what, carried(), NAREPHON_DONE);
    for (uint32_t line = 0; line < NAREPHON_LINES; line++) {
        same("reply of a line", replies[line], traced(line));
        same("place of a line", places[line], place);
        same("dots of a line", (uint32_t)memcmp(dots + line * NAREPHON_DOTS, line_dots, sizeof line_dots), 0);
    }
}

/* Without entries each line is the plain one, by either version of a record. */
static void plain_lines(void) {
    uint32_t told = 99;
    reset();
    for (size_t i = 0; i < sizeof bank; i++) bank[i] = (uint8_t)(i * 7 + i / 256);
    same("back", narephon_move_back(record, sizeof record, old, sizeof old, &told), NAREPHON_DONE);
    no_entries();
    same("carried", carried(), NAREPHON_DONE);
    for (uint32_t line = 0; line < NAREPHON_LINES; line++) {
        same("plain", narephon_draw(record, sizeof record, bank, sizeof bank, bank, sizeof bank, line, plain_dots, NAREPHON_DOTS),
             NAREPHON_DONE);
        same("dots", (uint32_t)memcmp(dots + line * NAREPHON_DOTS, plain_dots, sizeof plain_dots), 0);
        same("answers", replies[line] + places[line], 0);
        same("old record", traced_of(old, sizeof old, sizeof bank, line, NAREPHON_DOTS), NAREPHON_DONE);
        same("its dots", (uint32_t)memcmp(line_dots, plain_dots, sizeof plain_dots), 0);
    }
    same("old record, carried", carried_of(old, sizeof old, sizeof bank, NAREPHON_FRAME_DOTS, NAREPHON_LINES, NAREPHON_LINES),
         NAREPHON_DONE);
    same("its last dots", (uint32_t)memcmp(dots + 255 * NAREPHON_DOTS, plain_dots, sizeof plain_dots), 0);
}

/* Lines 0 to 9 are border: black, from line 4 on red, and from line 8 on the colour whose halves come by $44 at lines 6 and 8. */
static void bars(void) {
    static const uint16_t wanted[10] = {0, 0, 0, 0, 448, 448, 448, 448, 57, 57};
    reset();
    no_entries();
    entry(0, 0, 0x40, 16);
    entry(4, 0, 0x41, 0xE0);
    entry(4, 0, 0x40, 16);
    entry(6, 0, 0x44, 0x1C);
    entry(8, 0, 0x44, 1);
    entry(10, 1, 0, 1);
    each_alone("bars");
    for (uint32_t line = 0; line < 10; line++) same("bar", dots[line * NAREPHON_DOTS], wanted[line]);
}

/* A refused entry refuses its line and all later ones, with its place; those before it are drawn, and those after it not tried. */
static void refused_entry(const char *what, uint8_t kind, uint8_t number, uint8_t byte, uint8_t reply) {
    reset();
    no_entries();
    for (int i = 0; i < 300; i++) entry(7, 1, 0, 2);
    entry(9, kind, number, byte);
    entry(9, 0, 0x01, 0);
    entry(200, 0, 0x42, 5);
    each_alone(what);
    for (uint32_t line = 0; line < NAREPHON_LINES; line++) {
        same(what, replies[line], line < 9 ? 0 : reply);
        same(what, places[line], line < 9 ? 0 : 300);
    }
}

static void refused_entries(void) {
    refused_entry("register $00", 0, 0x00, 0, NAREPHON_NO_REGISTER);
    refused_entry("mask 5", 0, 0x42, 5, NAREPHON_OUT_OF_BOUNDS);
    refused_entry("select 128", 1, 2, 128, NAREPHON_OUT_OF_BOUNDS);
    reset();
    no_entries();
    entry(0, 0, 0x00, 0);
    same("the first entry", traced(0), NAREPHON_NO_REGISTER);
    same("its place", place, 0);
}

/* A line that is refused for its state, from 50 on, and from 60 on no more. */
static void refused_line(const char *what, uint8_t reply) {
    each_alone(what);
    for (uint32_t line = 0; line < NAREPHON_LINES; line++) {
        same(what, replies[line], line >= 50 && line < 60 ? reply : 0);
        same(what, places[line], 0);
    }
}

static void refused_lines(void) {
    reset();
    same("Timex", narephon_write_register(record, sizeof record, 0x08, 4), NAREPHON_DONE);
    memcpy(kept, record, sizeof record);
    no_entries();
    entry(50, 1, 1, 3);
    entry(60, 1, 1, 6);
    refused_line("no mode", NAREPHON_NO_MODE);
    no_entries();
    entry(50, 0, 0x15, 0x80);
    entry(50, 0, 0x6B, 0x80);
    entry(60, 0, 0x15, 0);
    refused_line("LoRes with tiles", NAREPHON_LORES_WITH_TILES);
    no_entries();
    entry(50, 1, 2, 64);
    entry(50, 1, 3, 1);
    entry(50, 0, 0x43, 1);
    entry(60, 0, 0x43, 0);
    refused_line("ULANext with ULAplus", NAREPHON_NEXT_WITH_PLUS);
    no_entries();
    entry(50, 0, 0x6B, 0x80);
    entry(50, 0, 0x2F, 2);
    entry(60, 0, 0x2F, 0);
    refused_line("far offset", NAREPHON_FAR_OFFSET);
}

/* The record or the trace refuses every line and the whole call. */
static void refused_whole(const char *what, uint8_t reply) {
    same(what, traced(0), reply);
    same(what, place, 0);
    same(what, traced(255), reply);
    same(what, carried(), reply);
    all_left(what);
}

static void no_trace_with(const char *what, size_t at, uint8_t byte, uint8_t reply) {
    uint8_t own = trace[at];
    trace[at] = byte;
    refused_whole(what, reply);
    trace[at] = own;
}

static void no_traces(void) {
    reset();
    no_entries();
    entry(0, 0, 0x00, 0);
    entry(200, 1, 3, 0);
    no_trace_with("count one less", 1, 8, NAREPHON_BAD_TRACE);
    no_trace_with("count 256 more", 0, 1, NAREPHON_BAD_TRACE);
    no_trace_with("version 0", 2, 0, NAREPHON_BAD_TRACE);
    no_trace_with("version 2", 2, 2, NAREPHON_BAD_TRACE);
    no_trace_with("kind 2", 4, 2, NAREPHON_BAD_TRACE);
    no_trace_with("kind 255 after the line", 8, 255, NAREPHON_BAD_TRACE);
    no_trace_with("port 4 after the line", 9, 4, NAREPHON_BAD_TRACE);
    no_trace_with("lines fall", 3, 201, NAREPHON_LINES_FALL);
    trace[3] = 201;
    no_trace_with("port 4, and lines fall", 9, 4, NAREPHON_BAD_TRACE);
    for (trace_len = 10; trace_len > 7; trace_len--) {
        counted();
        refused_whole("an entry cut short", NAREPHON_BAD_TRACE);
    }
    no_entries();
    for (trace_len = 0; trace_len < 3; trace_len++) refused_whole("no version", NAREPHON_BAD_TRACE);
}

/* The record is judged before its entries: the border 8 in it, which the first would mend, refuses all. */
static void judged_before_entries(void) {
    reset();
    no_entries();
    entry(0, 1, 0, 1);
    each_alone("border 1");
    record[35] = 8;
    memcpy(kept, record, sizeof record);
    refused_whole("border 8, then 1", NAREPHON_BAD_FIELD);
}

/* What is refused from the last of its order on: a line, then all of them. */
static void orders(void) {
    reset();
    no_entries();
    entry(9, 0, 0x00, 0);
    entry(8, 2, 0, 0);
    same("trace", traced(255), NAREPHON_BAD_TRACE);
    record[35] = 8;
    memcpy(kept, record, sizeof record);
    same("field", traced(255), NAREPHON_BAD_FIELD);
    same("its place", place, 0);
    same("field, carried", carried(), NAREPHON_BAD_FIELD);
    all_left("field");
    record[2] = 1;
    memcpy(kept, record, sizeof record);
    same("version", traced(255), NAREPHON_WRONG_VERSION);
    same("its place", place, 0);
    same("version, carried", carried(), NAREPHON_WRONG_VERSION);
    all_left("version");
    same("count", traced_of(record, 3, sizeof bank, 255, NAREPHON_DOTS), NAREPHON_WRONG_COUNT);
    same("short line", traced_of(record, 3, sizeof bank, 255, 639), NAREPHON_BUFFER_LENGTH);
    same("short bank", traced_of(record, 3, 16383, 255, 639), NAREPHON_BANK_LENGTH);
    same("line 256", traced_of(record, 3, 16383, 256, 639), NAREPHON_NO_LINE);
    same("its place", place, 0);
    same("count, carried", carried_of(record, 3, sizeof bank, NAREPHON_FRAME_DOTS, NAREPHON_LINES, NAREPHON_LINES),
         NAREPHON_WRONG_COUNT);
    all_left("count");
    same("short dots", carried_of(record, 3, sizeof bank, NAREPHON_FRAME_DOTS - 1, NAREPHON_LINES, NAREPHON_LINES),
         NAREPHON_BUFFER_LENGTH);
    all_left("short dots");
    same("short replies", carried_of(record, 3, sizeof bank, NAREPHON_FRAME_DOTS, NAREPHON_LINES - 1, NAREPHON_LINES),
         NAREPHON_BUFFER_LENGTH);
    all_left("short replies");
    same("short places", carried_of(record, 3, sizeof bank, NAREPHON_FRAME_DOTS, NAREPHON_LINES, NAREPHON_LINES - 1),
         NAREPHON_BUFFER_LENGTH);
    all_left("short places");
    same("short bank, carried", carried_of(record, 3, 16383, 0, 0, 0), NAREPHON_BANK_LENGTH);
    all_left("short bank");
}

int main(void) {
    plain_lines();
    bars();
    refused_entries();
    refused_lines();
    no_traces();
    judged_before_entries();
    orders();
    return ended("c, trace");
}
