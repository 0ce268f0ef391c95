/* The header against the library: each call once, and a refusal of each; those on a desk are in test_desk.c, those by a trace in
 * test_trace.c. */
#include "test.h"

static uint8_t record[NAREPHON_RECORD], before[NAREPHON_RECORD], bank[NAREPHON_BANK];
static uint8_t old[NAREPHON_OLD_RECORD], kept[NAREPHON_OLD_RECORD], moved[NAREPHON_RECORD];
static uint8_t file[NAREPHON_SCREEN], written[NAREPHON_SCREEN], screen[NAREPHON_BANK];
static uint8_t picture[NAREPHON_PICTURE], map[NAREPHON_MAP], definitions[NAREPHON_DEFINITIONS];
static uint16_t dots[NAREPHON_DOTS], layer2[NAREPHON_DOTS], sprites[NAREPHON_DOTS];
static uint32_t colours, length, place;

/* The reply of a check or of a move, and the place that it told. */
static void told(const char *what, uint8_t got, uint8_t reply, uint32_t where) {
    same(what, got, reply);
    same(what, place, where);
}

static void registers(void) {
    uint8_t value = 99;
    same("reset", narephon_reset(record, sizeof record), NAREPHON_DONE);
    same("reset, short", narephon_reset(record, sizeof record - 1), NAREPHON_BUFFER_LENGTH);
    same("write", narephon_write_register(record, sizeof record, 0x14, 7), NAREPHON_DONE);
    same("read", narephon_read_register(record, sizeof record, 0x14, &value), NAREPHON_DONE);
    same("what is read", value, 7);
    memcpy(before, record, sizeof record);
    same("mask 5", narephon_write_register(record, sizeof record, 0x42, 5), NAREPHON_OUT_OF_BOUNDS);
    same("record kept", (uint32_t)memcmp(before, record, sizeof record), 0);
    same("read of $FE", narephon_read_port(record, sizeof record, 0xFE, &value), NAREPHON_NO_REGISTER);
    same("its value", value, 0);
    same("port", narephon_write_port(record, sizeof record, 0xFE, 2), NAREPHON_DONE);
    same("frame", narephon_next_frame(record, sizeof record), NAREPHON_DONE);
    same("frame, short", narephon_next_frame(record, 3), NAREPHON_WRONG_COUNT);
}

static uint8_t check(const uint8_t *bytes, size_t record_len) {
    place = 99;
    return narephon_check_record(bytes, record_len, &place);
}

/* A byte that a place cannot have, and what is told of it. */
struct fault {
    size_t at;
    uint8_t byte, reply;
    uint32_t place;
};

/* Version 2: the number, the version, $43, $42, $33 and $27, the flag, the byte that none holds, the border, ULAplus, and the first and
 * last colours of palettes. */
static const struct fault faults[] = {
    {0, 9, NAREPHON_WRONG_COUNT, 0}, {1, 100, NAREPHON_WRONG_COUNT, 0},
    {2, 1, NAREPHON_WRONG_VERSION, 2}, {2, 3, NAREPHON_WRONG_VERSION, 2},
    {6, 16, NAREPHON_BAD_FIELD, 6}, {8, 5, NAREPHON_BAD_FIELD, 8},
    {20, 192, NAREPHON_BAD_FIELD, 20}, {22, 192, NAREPHON_BAD_FIELD, 22},
    {33, 2, NAREPHON_BAD_FIELD, 33}, {34, 1, NAREPHON_BAD_FIELD, 34},
    {35, 8, NAREPHON_BAD_FIELD, 35}, {38, 2, NAREPHON_BAD_FIELD, 38},
    {104, 2, NAREPHON_BAD_FIELD, 104}, {614, 2, NAREPHON_BAD_FIELD, 614},
    {1128, 255, NAREPHON_BAD_FIELD, 1128}, {2150, 2, NAREPHON_BAD_FIELD, 2150},
};

/* Version 1, whose places from the clips on are two less. */
static const struct fault old_faults[] = {
    {1, 102, NAREPHON_WRONG_COUNT, 0}, {2, 2, NAREPHON_WRONG_VERSION, 2},
    {20, 192, NAREPHON_BAD_FIELD, 20}, {29, 4, NAREPHON_BAD_FIELD, 29},
    {31, 2, NAREPHON_BAD_FIELD, 31}, {32, 1, NAREPHON_BAD_FIELD, 32},
    {35, 128, NAREPHON_BAD_FIELD, 35}, {102, 2, NAREPHON_BAD_FIELD, 102},
    {2148, 2, NAREPHON_BAD_FIELD, 2148},
};

/* Each alone, then with all that come behind it: the first is told. */
static void faulty(uint8_t *bytes, size_t record_len, const struct fault *list, size_t count) {
    uint8_t own[NAREPHON_RECORD];
    memcpy(own, bytes, record_len);
    for (size_t i = 0; i < count; i++) {
        bytes[list[i].at] = list[i].byte;
        told("one fault", check(bytes, record_len), list[i].reply, list[i].place);
        memcpy(bytes, own, record_len);
    }
    for (size_t i = count; i-- > 0;) {
        bytes[list[i].at] = list[i].byte;
        told("several faults", check(bytes, record_len), list[i].reply, list[i].place);
    }
    memcpy(bytes, own, record_len);
}

static void records(void) {
    const uint8_t none[2] = {0, 0};
    memcpy(before, record, sizeof record);
    told("check", check(record, sizeof record), NAREPHON_DONE, 0);
    told("check, short", check(record, sizeof record - 1), NAREPHON_WRONG_COUNT, 0);
    told("check, empty", check(record, 0), NAREPHON_WRONG_COUNT, 0);
    told("check, one byte", check(record, 1), NAREPHON_WRONG_COUNT, 0);
    told("check, none following", check(none, sizeof none), NAREPHON_WRONG_COUNT, 0);
    same("record kept", (uint32_t)memcmp(before, record, sizeof record), 0);
    faulty(before, sizeof before, faults, sizeof faults / sizeof *faults);
}

static void write_register(uint8_t number, uint8_t value) {
    same("write", narephon_write_register(record, sizeof record, number, value), NAREPHON_DONE);
}

static uint8_t up(const uint8_t *bytes, size_t record_len, size_t target_len) {
    place = 99;
    return narephon_move_up(bytes, record_len, moved, target_len, &place);
}

static uint8_t back(const uint8_t *bytes, size_t record_len, size_t target_len) {
    place = 99;
    return narephon_move_back(bytes, record_len, old, target_len, &place);
}

static uint8_t move_up(size_t target_len) {
    return up(old, sizeof old, target_len);
}

static uint8_t move_back(size_t target_len) {
    return back(record, sizeof record, target_len);
}

static void write_scrolls(uint8_t lores_x, uint8_t lores_y, uint8_t ula_x, uint8_t ula_y) {
    write_register(0x32, lores_x);
    write_register(0x33, lores_y);
    write_register(0x26, ula_x);
    write_register(0x27, ula_y);
}

/* A record with one scroll goes back and comes up again: of its 2,152 bytes those of $26 and $27, at 21 and 22, are left out. */
static void moves(void) {
    write_scrolls(1, 2, 3, 4);
    for (uint8_t i = 0; i < 4; i++) same("place of a scroll", record[19 + i], i + 1u);
    write_scrolls(13, 65, 13, 65);
    told("back", move_back(sizeof old), NAREPHON_DONE, 0);
    same("how many follow", old[0] * 256u + old[1], 2148);
    same("version", old[2], 1);
    same("up to $33", (uint32_t)memcmp(old + 3, record + 3, 18), 0);
    same("from the clips on", (uint32_t)memcmp(old + 21, record + 23, 2129), 0);
    told("up", move_up(sizeof moved), NAREPHON_DONE, 0);
    same("up again", (uint32_t)memcmp(moved, record, sizeof record), 0);
}

/* The refusals of moves in their order; the target, every byte of it 7, stays. */
static void refused_up(void) {
    memset(moved, 7, sizeof moved);
    told("up, short", move_up(sizeof moved - 1), NAREPHON_BUFFER_LENGTH, 0);
    told("up, short and none", up(record, 3, 3), NAREPHON_BUFFER_LENGTH, 0);
    told("up, none", up(record, 3, sizeof moved), NAREPHON_WRONG_COUNT, 0);
    told("up, of version 2", up(record, sizeof record, sizeof moved), NAREPHON_WRONG_VERSION, 2);
    record[35] = 8;
    told("up, of version 2 and border 8", up(record, sizeof record, sizeof moved), NAREPHON_WRONG_VERSION, 2);
    record[35] = 2;
    old[33] = 8;
    told("up, border 8", move_up(sizeof moved), NAREPHON_BAD_FIELD, 33);
    old[33] = 2;
    for (size_t i = 0; i < sizeof moved; i++) same("target of up kept", moved[i], 7);
    told("up", move_up(sizeof moved), NAREPHON_DONE, 0);
}

static void refused_back(void) {
    memcpy(kept, old, sizeof old);
    memset(old, 7, sizeof old);
    told("back, short", move_back(sizeof old - 1), NAREPHON_BUFFER_LENGTH, 0);
    told("back, none", back(record, 3, sizeof old), NAREPHON_WRONG_COUNT, 0);
    told("back, of an old one", back(kept, sizeof kept, sizeof old), NAREPHON_WRONG_VERSION, 2);
    write_register(0x26, 14);
    told("back, X differs", move_back(sizeof old), NAREPHON_PAIRS_DIFFER, 0);
    record[35] = 8;
    told("back, border 8 and X differs", move_back(sizeof old), NAREPHON_BAD_FIELD, 35);
    record[35] = 2;
    write_register(0x26, 13);
    write_register(0x27, 66);
    told("back, Y differs", move_back(sizeof old), NAREPHON_PAIRS_DIFFER, 0);
    same("$27 above 191", narephon_write_register(record, sizeof record, 0x27, 192), NAREPHON_OUT_OF_BOUNDS);
    told("back, short and Y differs", move_back(3), NAREPHON_BUFFER_LENGTH, 0);
    for (size_t i = 0; i < sizeof old; i++) same("target of back kept", old[i], 7);
    write_register(0x27, 65);
}

static uint8_t draw_by(const uint8_t *by, size_t length) {
    return narephon_draw(by, length, bank, sizeof bank, bank, sizeof bank, 32, dots, NAREPHON_DOTS);
}

/* Scrolled by 13 and 65, column 1 of row 65 is the display's first: its ink, 2, is red there, by the old record and the new. */
static void scrolled(void) {
    write_register(0x40, 2);
    write_register(0x41, 0xE0);
    bank[0x0901] = 0x80;
    bank[0x1901] = 0x0A;
    same("draw, new", draw_by(record, sizeof record), NAREPHON_DONE);
    same("its first dot", dots[64], 448);
    same("its third", dots[66], 0);
    told("back", move_back(sizeof old), NAREPHON_DONE, 0);
    memset(dots, 0, sizeof dots);
    same("draw, old", draw_by(old, sizeof old), NAREPHON_DONE);
    same("its first dot", dots[64], 448);
    write_register(0x32, 0);
    write_register(0x33, 0);
    memset(dots, 0, sizeof dots);
    same("draw, $32 and $33 0", draw_by(record, sizeof record), NAREPHON_DONE);
    same("its first dot", dots[64], 448);
}

/* An old record is read as it is, and never changed. */
static void old_records(void) {
    uint8_t value = 99;
    memcpy(kept, old, sizeof old);
    memset(file, 1, sizeof file);
    colours = length = 99;
    told("check", check(old, sizeof old), NAREPHON_DONE, 0);
    faulty(old, sizeof old, old_faults, sizeof old_faults / sizeof *old_faults);
    same("read of $26", narephon_read_register(old, sizeof old, 0x26, &value), NAREPHON_DONE);
    same("its value", value, 13);
    same("read of $27", narephon_read_register(old, sizeof old, 0x27, &value), NAREPHON_DONE);
    same("its value", value, 65);
    same("read of $FF3B", narephon_read_port(old, sizeof old, 0xFF3B, &value), NAREPHON_DONE);
    same("screen", narephon_write_scr(old, sizeof old, bank, sizeof bank, written, sizeof written, &length),
         NAREPHON_DONE);
    same("its length", length, 6912);
    same("frame", narephon_next_frame(old, sizeof old), NAREPHON_WRONG_VERSION);
    same("register", narephon_write_register(old, sizeof old, 0x14, 7), NAREPHON_WRONG_VERSION);
    same("port", narephon_write_port(old, sizeof old, 0xFE, 2), NAREPHON_WRONG_VERSION);
    same("file", narephon_read_scr(old, sizeof old, screen, sizeof screen, file, 6912, &colours), NAREPHON_WRONG_VERSION);
    same("its colours", colours, 0);
    for (size_t i = 0; i < sizeof screen; i++) same("bank kept", screen[i], 0);
    same("reset", narephon_reset(old, sizeof old), NAREPHON_BUFFER_LENGTH);
    same("old record kept", (uint32_t)memcmp(kept, old, sizeof old), 0);
}

/* A dot of the two lent lines, and what shows of it in each of the orders SLU, LSU, SUL, LUS, USL and ULS. */
struct lent {
    size_t at;
    uint16_t layer2, sprite, shown[6];
};

/* U, the dot of ULA and tilemap, is 448 up to dot 63, and transparent from there to 575. */
static const struct lent lent_dots[] = {
    {0, 7, 9, {9, 7, 9, 7, 448, 448}},
    {1, 7, NAREPHON_TRANSPARENT, {7, 7, 448, 7, 448, 448}},
    {2, NAREPHON_TRANSPARENT, 9, {9, 9, 9, 448, 448, 448}},
    {3, NAREPHON_TRANSPARENT, NAREPHON_TRANSPARENT, {448, 448, 448, 448, 448, 448}},
    {4, 7 + NAREPHON_PRIORITY, 9, {7, 7, 7, 7, 7, 7}},
    {64, 7, 9, {9, 7, 9, 7, 9, 7}},
    {65, 7, NAREPHON_TRANSPARENT, {7, 7, 7, 7, 7, 7}},
    {66, NAREPHON_TRANSPARENT, 9, {9, 9, 9, 9, 9, 9}},
    {67, NAREPHON_TRANSPARENT, NAREPHON_TRANSPARENT, {56, 56, 56, 56, 56, 56}},
    {575, NAREPHON_PRIORITY, 511, {0, 0, 0, 0, 0, 0}},
    {639, 511 + NAREPHON_PRIORITY, NAREPHON_TRANSPARENT, {511, 511, 511, 511, 511, 511}},
};

/* Line 32 with lent lines of so many numbers. */
static uint8_t draw_layers_of(size_t layer2_len, size_t sprites_len, size_t dots_len) {
    return narephon_draw_layers(record, sizeof record, bank, sizeof bank, bank, sizeof bank, layer2, layer2_len, sprites,
                                sprites_len, 32, dots, dots_len);
}

static uint8_t draw_layers(void) {
    return draw_layers_of(NAREPHON_DOTS, NAREPHON_DOTS, NAREPHON_DOTS);
}

/* The border is red, 448, the fallback green, 56, and the display clipped away. */
static void layers_begun(void) {
    same("reset", narephon_reset(record, sizeof record), NAREPHON_DONE);
    write_register(0x40, 16);
    write_register(0x41, 0xE0);
    write_register(0x4A, 0x1C);
    write_register(0x1A, 255);
    write_register(0x1A, 0);
    for (size_t i = 0; i < NAREPHON_DOTS; i++) layer2[i] = sprites[i] = NAREPHON_TRANSPARENT;
}

static void layers(void) {
    size_t count = sizeof lent_dots / sizeof *lent_dots;
    layers_begun();
    for (size_t i = 0; i < count; i++) {
        layer2[lent_dots[i].at] = lent_dots[i].layer2;
        sprites[lent_dots[i].at] = lent_dots[i].sprite;
    }
    for (uint8_t order = 0; order < 6; order++) {
        write_register(0x15, (uint8_t)(order * 4));
        same("layers", draw_layers(), NAREPHON_DONE);
        for (size_t i = 0; i < count; i++) same("what shows", dots[lent_dots[i].at], lent_dots[i].shown[order]);
    }
}

/* By the old record, with one line lent as both. */
static uint8_t draw_one_lent(void) {
    return narephon_draw_layers(old, sizeof old, bank, sizeof bank, bank, sizeof bank, layer2, NAREPHON_DOTS, layer2,
                                NAREPHON_DOTS, 32, dots, NAREPHON_DOTS);
}

static void old_layers(void) {
    layers_begun();
    told("back", move_back(sizeof old), NAREPHON_DONE, 0);
    layer2[0] = 7;
    same("one line lent", draw_one_lent(), NAREPHON_DONE);
    same("its dot", dots[0], 7);
    same("the next", dots[1], 448);
    layer2[0] = NAREPHON_PRIORITY;
    same("one line with priority", draw_one_lent(), NAREPHON_BAD_DOT);
}

/* The refusals of layers, from the last of their order on; the line, every dot of it 1, stays. Each bad sprite is hidden by a
 * dot of Layer 2 with priority. */
static void refused_layers(void) {
    const uint16_t bad[] = {513, 1023, 1536, 2047, 65535};
    layers_begun();
    for (size_t i = 0; i < NAREPHON_DOTS; i++) dots[i] = 1;
    for (size_t i = 0; i < sizeof bad / sizeof *bad; i++) {
        layer2[639] = bad[i];
        same("bad Layer 2", draw_layers(), NAREPHON_BAD_DOT);
        layer2[639] = NAREPHON_PRIORITY;
        sprites[639] = bad[i];
        same("bad sprite", draw_layers(), NAREPHON_BAD_DOT);
        sprites[639] = NAREPHON_TRANSPARENT;
    }
    sprites[0] = NAREPHON_PRIORITY;
    same("sprite with priority", draw_layers(), NAREPHON_BAD_DOT);
    for (uint8_t control = 0x18; control <= 0x1C; control += 4) {
        write_register(0x15, control);
        same("no order, bad sprite", draw_layers(), NAREPHON_NO_ORDER);
    }
    sprites[0] = NAREPHON_TRANSPARENT;
    same("no order", draw_layers(), NAREPHON_NO_ORDER);
    same("short Layer 2", draw_layers_of(639, NAREPHON_DOTS, NAREPHON_DOTS), NAREPHON_BUFFER_LENGTH);
    same("short sprites", draw_layers_of(NAREPHON_DOTS, 639, NAREPHON_DOTS), NAREPHON_BUFFER_LENGTH);
    same("short line", draw_layers_of(NAREPHON_DOTS, NAREPHON_DOTS, 639), NAREPHON_BUFFER_LENGTH);
    for (size_t i = 0; i < NAREPHON_DOTS; i++) same("line kept", dots[i], 1);
    same("draw without layers", draw_by(record, sizeof record), NAREPHON_DONE);
}

static void pictures(void) {
    uint32_t value = 99, count = 99;
    same("draw", narephon_draw(record, sizeof record, bank, sizeof bank, bank, sizeof bank, 255, dots, NAREPHON_DOTS),
         NAREPHON_DONE);
    same("line 256", narephon_draw(record, sizeof record, bank, sizeof bank, bank, sizeof bank, 256, dots, NAREPHON_DOTS),
         NAREPHON_NO_LINE);
    same("screen value", narephon_screen_value(455, &value), NAREPHON_DONE);
    same("455", value, 0xFF00FF);
    same("screen value 512", narephon_screen_value(512, &value), NAREPHON_OUT_OF_BOUNDS);
    same("its value", value, 0);
    same("pack", narephon_pack(picture, sizeof picture, 256, 0, map, sizeof map, definitions, sizeof definitions, &count),
         NAREPHON_DONE);
    same("tiles", count, 1);
    same("pack, none allowed",
         narephon_pack(picture, sizeof picture, 0, 0, map, sizeof map, definitions, sizeof definitions, &count),
         NAREPHON_TOO_MANY_TILES);
    same("its count", count, 0);
    same("fewest", narephon_fewest(picture, sizeof picture, &count), NAREPHON_DONE);
    same("how many", count, 1);
    same("fewest, short", narephon_fewest(picture, sizeof picture - 1, &count), NAREPHON_BUFFER_LENGTH);
    same("its count", count, 0);
}

static uint8_t read_screen(size_t record_len, size_t bank_len, size_t file_len) {
    colours = 99;
    return narephon_read_scr(record, record_len, screen, bank_len, file, file_len, &colours);
}

static uint8_t write_screen(size_t record_len, size_t bank_len, size_t file_len) {
    length = 99;
    return narephon_write_scr(record, record_len, screen, bank_len, written, file_len, &length);
}

/* A file of mode 6 with colours is read and written back; then its front as one of mode 0 without. */
static void screens(void) {
    uint8_t value = 99;
    for (size_t i = 0; i < sizeof file; i++) file[i] = (uint8_t)(i % 251);
    file[12288] = 0x26;
    same("reset", narephon_reset(record, sizeof record), NAREPHON_DONE);
    same("read", read_screen(sizeof record, sizeof screen, sizeof file), NAREPHON_DONE);
    same("where its colours are", colours, 12289);
    same("first part", (uint32_t)memcmp(screen, file, 6144), 0);
    same("second part", (uint32_t)memcmp(screen + 0x2000, file + 6144, 6144), 0);
    same("between them", screen[0x1800], 0);
    same("port", narephon_read_port(record, sizeof record, 0xFF, &value), NAREPHON_DONE);
    same("its byte", value, 0x26);
    same("write", write_screen(sizeof record, sizeof screen, sizeof written), NAREPHON_DONE);
    same("length", length, 12353);
    same("the same file", (uint32_t)memcmp(file, written, sizeof file), 0);
    same("read, mode 0", read_screen(sizeof record, sizeof screen, 6912), NAREPHON_DONE);
    same("its colours", colours, 0);
    written[6912] = 7;
    same("write, mode 0", write_screen(sizeof record, sizeof screen, sizeof written), NAREPHON_DONE);
    same("its length", length, 6912);
    same("past it", written[6912], 7);
}

/* The refusals of screen files in their order; record, bank and file stay. */
static void refused_screens(void) {
    memset(screen, 7, sizeof screen);
    same("LoRes", narephon_write_register(record, sizeof record, 0x15, 0x80), NAREPHON_DONE);
    memcpy(before, record, sizeof record);
    same("read, short bank", read_screen(3, 16383, 6911), NAREPHON_BANK_LENGTH);
    same("its colours", colours, 0);
    same("read, short record", read_screen(3, sizeof screen, 6911), NAREPHON_WRONG_COUNT);
    same("its colours", colours, 0);
    same("read, short file", read_screen(sizeof record, sizeof screen, 6911), NAREPHON_NO_FORM);
    same("its colours", colours, 0);
    same("record kept", (uint32_t)memcmp(before, record, sizeof record), 0);
    for (size_t i = 0; i < sizeof screen; i++) same("bank kept", screen[i], 7);
    memset(written, 7, sizeof written);
    same("write, short bank", write_screen(3, 16383, 12352), NAREPHON_BANK_LENGTH);
    same("its length", length, 0);
    same("write, short file", write_screen(3, sizeof screen, 12352), NAREPHON_BUFFER_LENGTH);
    same("its length", length, 0);
    same("write, short record", write_screen(3, sizeof screen, sizeof written), NAREPHON_WRONG_COUNT);
    same("its length", length, 0);
    same("write, LoRes", write_screen(sizeof record, sizeof screen, sizeof written), NAREPHON_NO_FORM);
    same("its length", length, 0);
    for (size_t i = 0; i < sizeof written; i++) same("file kept", written[i], 7);
}

/* The version as text is that of its numbers. */
static void version(void) {
    char text[32];
    sprintf(text, "%d.%d.%d", NAREPHON_VERSION_MAJOR, NAREPHON_VERSION_MINOR, NAREPHON_VERSION_PATCH);
    same("version", (uint32_t)strcmp(text, NAREPHON_VERSION), 0);
}

int main(void) {
    version();
    registers();
    records();
    moves();
    refused_up();
    refused_back();
    scrolled();
    old_records();
    layers();
    old_layers();
    refused_layers();
    pictures();
    screens();
    refused_screens();
    return ended("c");
}
