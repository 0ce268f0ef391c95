/* Narephon: ZX Spectrum Next lines, registers, records, traces, desks, screen files
 * and tile packing.
 *
 * A member's whole video state is a record of NAREPHON_RECORD bytes that the
 * caller keeps and lends. Every call ends with an answer on every input and
 * returns a reply number (NAREPHON_DONE is 0). On a refusal `*value`, `*count`,
 * `*colours` and `*length` are set to 0, and the record, the desk and every other
 * buffer stay as they were. `*place` is set always: to the place in the record
 * that 16, 17 or 18 tells, counted from 0, and to 0 by every other reply;
 * narephon_draw_traced sets it to that of a refused entry, and to 0 by every other
 * reply. Later versions may answer with numbers that are not in this header: a
 * caller takes any number but 0 for a refusal.
 *
 * Records are made in version 2. One of version 1, which libraries before 0.3.0
 * made, is an old record of NAREPHON_OLD_RECORD bytes: it lacks registers $26
 * and $27, which scroll the ULA, and its $32 and $33 stand for them. A call that
 * only reads its record, which is const there, takes both versions; the two
 * moves say which they take. A call that changes its record takes version 2
 * alone: an old record is 17 there, and narephon_move_up makes it new. The
 * `record_len` of a stored record is the length it was stored with: an old one
 * lent as the whole of a buffer of NAREPHON_RECORD bytes is 16 to every call.
 *
 * A desk is one buffer of many members' records: NAREPHON_DESK bytes that the
 * caller keeps and lends, from which a call takes the record of the member that
 * it names by number. The calls on a desk, narephon_desk_*, are the last of this
 * header, and what a desk is stands before them.
 *
 * A buffer is a pointer and its number of elements. A pointer is not null,
 * also where the number is 0. What is lent for reading may overlap: `ula` and
 * `tile` may be the same pointer, and so may `layer2` and `sprites`. What is
 * lent for writing (the record or the desk of a call that changes it, the
 * `target` of a move, the bank that a screen file is read into, the file that one
 * is written into, `dots`, `replies`, `places`, `map`, `definitions`, and `value`,
 * `count`, `colours`, `length` and `place` too) overlaps nothing else that the call
 * is given.
 *
 * The library keeps nothing between calls and has no data of its own that it
 * writes. Calls may run side by side in several threads as long as none writes
 * to a buffer that another one is given. A desk is one buffer for all its members:
 * it is written by one call at a time, whoever's, and not read by another then.
 */
#ifndef NAREPHON_H
#define NAREPHON_H

#include <stddef.h>
#include <stdint.h>

#ifdef __cplusplus
extern "C" {
#endif

/* The version of this header and of the library that it is delivered with. */
#define NAREPHON_VERSION "0.7.1"
#define NAREPHON_VERSION_MAJOR 0
#define NAREPHON_VERSION_MINOR 7
#define NAREPHON_VERSION_PATCH 1

/* Lengths, in elements. */
#define NAREPHON_RECORD 2152
#define NAREPHON_OLD_RECORD 2150
#define NAREPHON_BANK 16384
#define NAREPHON_DOTS 640
#define NAREPHON_LINES 256
#define NAREPHON_FRAME_DOTS 163840
#define NAREPHON_PICTURE 40960
#define NAREPHON_MAP 2560
#define NAREPHON_DEFINITIONS 8192
#define NAREPHON_SCREEN 12353
#define NAREPHON_DESK 34480

/* The seats of a desk. */
#define NAREPHON_SEATS 16

/* Numbers of a lent line, besides the colours 0 to 511: a transparent dot, and
 * what is added to the colour of a Layer 2 dot that has priority. */
#define NAREPHON_TRANSPARENT 512
#define NAREPHON_PRIORITY 1024

/* Reply numbers. */
enum narephon_reply {
    NAREPHON_DONE = 0,             /* done */
    NAREPHON_NO_LINE = 1,          /* the line is above 255 */
    NAREPHON_BANK_LENGTH = 2,      /* a bank is not 16,384 bytes long */
    NAREPHON_BUFFER_LENGTH = 3,    /* another buffer has the wrong length */
    NAREPHON_NOT_LAWFUL = 4,       /* the state is not lawful */
    NAREPHON_NO_MODE = 5,          /* the ULA is on, LoRes is off, and port $FF gives no mode */
    NAREPHON_LORES_WITH_TILES = 6, /* LoRes and the tilemap are both on */
    NAREPHON_NEXT_WITH_PLUS = 7,   /* ULANext and ULAplus are both on */
    NAREPHON_FAR_OFFSET = 8,       /* the tilemap is on and its X offset is past its width */
    NAREPHON_NO_REGISTER = 9,      /* there is no such register or port, or it cannot be used that way */
    NAREPHON_OUT_OF_BOUNDS = 10,   /* the value is out of its bounds */
    NAREPHON_TOO_MANY_TILES = 11,  /* no map naming at most the number allowed draws the picture */
    NAREPHON_PACKING_BOUNDS = 12,  /* the number allowed is above 256, or the palette offset above 15 */
    /* 13 stood for 16, 17 and 18 before 0.4.0, and is not used again. */
    NAREPHON_NO_FORM = 14,         /* the file is not a screen, or the screen has no form as a file */
    NAREPHON_PAIRS_DIFFER = 15,    /* the record cannot be moved back: $26 is not $32, or $27 is not $33 */
    NAREPHON_WRONG_COUNT = 16,     /* the record's stated number is missing, is not the number of bytes following, or is neither 2,148 nor 2,150 */
    NAREPHON_WRONG_VERSION = 17,   /* the record's version is not read here, or is not the one of its length */
    NAREPHON_BAD_FIELD = 18,       /* a field of the record is out of its bounds */
    NAREPHON_NO_ORDER = 19,        /* $15 bits 4-2 are 110 or 111, which is no order of the layers */
    NAREPHON_BAD_DOT = 20,         /* a number of the Layer 2 line or of the sprite line is not allowed */
    NAREPHON_BAD_DESK = 21,        /* the desk has the wrong length, a seat that is not of its form, or a number seated twice */
    NAREPHON_ALREADY_OPEN = 22,    /* the member already has a seat */
    NAREPHON_NOT_OPEN = 23,        /* the member has no seat */
    NAREPHON_DESK_FULL = 24,       /* all sixteen seats are held */
    NAREPHON_BAD_TRACE = 25,       /* the trace is not well formed */
    NAREPHON_LINES_FALL = 26       /* the lines of the trace fall */
};

/* Below, "replies" are the refusals of a call in the order in which they are
 * judged: where several hold, the first is given. No call gives 4: a state is
 * always lent as a record, and a record of an unlawful state is 18, on a desk 21.
 *
 * Where a call reads its record, 16, 17 and 18 stand together. 16 tells place 0,
 * the stated number: two bytes, high first. 17 tells place 2, the version. 18
 * tells the place of the first field that is out of its bounds: of a colour, which
 * has two bytes, that of the first, its high byte; of a held byte that is not 0
 * while no half is held, the byte's own. */

/* Writes the record of the reset state into `record`, whatever it held;
 * `record_len` is NAREPHON_RECORD. Replies: 3.
 * A refusal leaves `record` as it was. */
uint8_t narephon_reset(uint8_t *record, size_t record_len);

/* Says whether `record` is a record of a lawful state, of either version, and if
 * not, what is wrong with it and where, in `*place`. Replies: 16, 17, 18.
 * It changes nothing. The other calls judge their record by themselves. */
uint8_t narephon_check_record(const uint8_t *record, size_t record_len, uint32_t *place);

/* Moves an old record up: writes the record of version 2 of its state into
 * `target`, $26 and $27 being its $32 and $33, so that every line is drawn as
 * before. `target_len` is NAREPHON_RECORD; a record of version 2 is 17.
 * Replies: 3, 16, 17, 18.
 * It leaves `record` as it was, and a refusal `target` too. */
uint8_t narephon_move_up(const uint8_t *record, size_t record_len,
                         uint8_t *target, size_t target_len,
                         uint32_t *place);

/* Moves a record of version 2 back: writes the old record of its state, which
 * libraries before 0.3.0 take, into `target`. It has one while $26 is $32 and
 * $27 is $33. `target_len` is NAREPHON_OLD_RECORD; an old record is 17.
 * Replies: 3, 16, 17, 18, 15.
 * It leaves `record` as it was, and a refusal `target` too. */
uint8_t narephon_move_back(const uint8_t *record, size_t record_len,
                           uint8_t *target, size_t target_len,
                           uint32_t *place);

/* Moves the state in `record` one frame on, from 255 to 0.
 * Replies: 16, 17, 18.
 * A refusal leaves `record` as it was. */
uint8_t narephon_next_frame(uint8_t *record, size_t record_len);

/* Writes `value` to the register `number` of the state in `record`.
 * Replies: 16, 17, 18, 9, 10.
 * A refusal leaves `record` as it was, a half-sent colour still held. */
uint8_t narephon_write_register(uint8_t *record, size_t record_len, uint8_t number, uint8_t value);

/* Writes `value` to a port of the state in `record`: $00FE, $00FF, $BF3B or
 * $FF3B, by its whole number. Replies: 16, 17, 18, 9, 10.
 * A refusal leaves `record` as it was. */
uint8_t narephon_write_port(uint8_t *record, size_t record_len, uint16_t port, uint8_t value);

/* Reads the register `number` of the state in `record` into `*value`. A read
 * moves nothing in the record. Replies: 16, 17, 18, 9.
 * A refusal sets `*value` to 0. */
uint8_t narephon_read_register(const uint8_t *record, size_t record_len, uint8_t number, uint8_t *value);

/* Reads a port of the state in `record` into `*value`: $FF3B, and $00FF while
 * register $08 bit 2 is set. A read moves nothing in the record.
 * Replies: 16, 17, 18, 9.
 * A refusal sets `*value` to 0. */
uint8_t narephon_read_port(const uint8_t *record, size_t record_len, uint16_t port, uint8_t *value);

/* Draws line 0 to 255 of the state in `record` into `dots`: NAREPHON_DOTS
 * nine-bit colours RRRGGGBBB, two for each pixel of a surface 320 wide.
 * `ula_len` and `tile_len` are NAREPHON_BANK; the two banks may be the same.
 * Replies: 1, 2, 3, 16, 17, 18, 6, 7, 5, 8.
 * A refusal leaves `dots` as it was. */
uint8_t narephon_draw(const uint8_t *record, size_t record_len,
                      const uint8_t *ula, size_t ula_len,
                      const uint8_t *tile, size_t tile_len,
                      uint32_t line, uint16_t *dots, size_t dots_len);

/* Draws a line as narephon_draw does, with two finished lines of the caller's
 * composed into it: Layer 2's and the sprites', NAREPHON_DOTS numbers each. A
 * number is a colour, 0 to 511, or NAREPHON_TRANSPARENT; in `layer2` also a
 * colour + NAREPHON_PRIORITY. Every number is judged, a hidden one too. Register
 * $15 bits 4-2 are the order from the top, S the sprites, L Layer 2, U the ULA
 * and the tilemap together: 000 SLU, 001 LSU, 010 SUL, 011 LUS, 100 USL, 101 ULS.
 * The topmost dot that is not transparent shows, or the fallback colour where
 * there is none; a Layer 2 dot with priority shows in every order. Register $14
 * makes no dot of the two lines transparent.
 * Replies: 1, 2, 3, 16, 17, 18, 6, 7, 5, 8, 19, 20.
 * A refusal leaves `dots` as it was. */
uint8_t narephon_draw_layers(const uint8_t *record, size_t record_len,
                             const uint8_t *ula, size_t ula_len,
                             const uint8_t *tile, size_t tile_len,
                             const uint16_t *layer2, size_t layer2_len,
                             const uint16_t *sprites, size_t sprites_len,
                             uint32_t line, uint16_t *dots, size_t dots_len);

/* A trace is a recording of register and port writes, each stamped with the line
 * that it comes at: the number of bytes following in two bytes, high first; the
 * version, 1; and entries of four bytes: the line, the kind (0 a register, 1 a
 * port), the number (of a port 0 to 3: $FE, $FF, $BF3B, $FF3B) and the byte. Bytes
 * of another form are 25: fewer than three, a number that is not that of the bytes
 * following, another version, a last entry cut short, a kind above 1, a port above
 * 3. A line below that of the entry before it is 26. All of the trace is judged, by
 * 25 and then by 26, before an entry is tried. A register that there is not is no
 * fault of its form: it is 9 when it is tried. */

/* Draws a line as narephon_draw does, by the state that the one in `record` becomes
 * with every entry of `trace` stamped `line` or less, done in turn. An entry is what
 * narephon_write_register or narephon_write_port does. One that is refused, by 9 or
 * 10, refuses the drawing, and those after it are not tried; `*place` is then its
 * place, counted from 0 among the entries, and 0 by every other reply. The record
 * is only read.
 * Replies: 1, 2, 3, 16, 17, 18, 25, 26, those of the entries (9, 10), 6, 7, 5, 8.
 * A refusal leaves `dots` as it was. */
uint8_t narephon_draw_traced(const uint8_t *record, size_t record_len,
                             const uint8_t *trace, size_t trace_len,
                             const uint8_t *ula, size_t ula_len,
                             const uint8_t *tile, size_t tile_len,
                             uint32_t line, uint16_t *dots, size_t dots_len,
                             uint32_t *place);

/* Draws lines 0 to 255 one after the other, with the state carried along, so that
 * each entry of `trace` is done once. Line L has the NAREPHON_DOTS numbers of `dots`
 * from L x NAREPHON_DOTS on, `replies[L]` and `places[L]`: what narephon_draw_traced
 * draws, answers and sets for it. A refused line leaves its numbers as they were,
 * and later lines are drawn; after a refused entry every later line answers its
 * reply and its place. With the three bytes 0, 1, 1 as `trace`, which has no
 * entries, each line is that of narephon_draw. The record is only read. `dots_len`
 * is NAREPHON_FRAME_DOTS, `replies_len` and `places_len` are NAREPHON_LINES.
 * Replies: 2, 3, 16, 17, 18, 25, 26; what refuses a line is in `replies` alone,
 * each of them 0, 5, 6, 7, 8, 9 or 10: the record is judged once, before entries.
 * A refusal leaves `dots`, `replies` and `places` as they were. */
uint8_t narephon_draw_carried(const uint8_t *record, size_t record_len,
                              const uint8_t *trace, size_t trace_len,
                              const uint8_t *ula, size_t ula_len,
                              const uint8_t *tile, size_t tile_len,
                              uint16_t *dots, size_t dots_len,
                              uint8_t *replies, size_t replies_len,
                              uint16_t *places, size_t places_len);

/* Reads a screen file (.scr) into `bank` and into the state in `record`;
 * `bank_len` is NAREPHON_BANK. The file's length tells its form: 6,912 bytes are
 * mode 0, 12,288 mode 2, and 12,289 mode 6 with the byte of port $FF at its end,
 * whose low three bits are 6; each may have 64 ULAplus colours behind it. The
 * bytes that the form names go to $0000 to $1AFF of the bank in mode 0, else to
 * $0000 to $17FF and $2000 to $37FF. LoRes and ULANext go off, register $08 bit 2
 * is set, port $FF becomes 0, 2 or the file's byte. With colours ULAplus goes on
 * and has them as its registers, without it goes off; nothing else changes.
 * `*colours` becomes the place in `file` of its 64 colours, 0 where it has none.
 * Replies: 2, 16, 17, 18, 14.
 * A refusal leaves `record` and `bank` as they were and sets `*colours` to 0. */
uint8_t narephon_read_scr(uint8_t *record, size_t record_len,
                          uint8_t *bank, size_t bank_len,
                          const uint8_t *file, size_t file_len,
                          uint32_t *colours);

/* Writes the screen of the state in `record`, with the bytes of `bank`, as a
 * screen file into the front of `file`, and sets `*length` to its number of
 * bytes; those past it stay. `bank_len` is NAREPHON_BANK, `file_len`
 * NAREPHON_SCREEN, the longest form. There is a form for modes 0, 2 and 6 with
 * LoRes off; the ULAplus registers are its colours where ULAplus is on.
 * Replies: 2, 3, 16, 17, 18, 14.
 * A refusal leaves `file` as it was and sets `*length` to 0. */
uint8_t narephon_write_scr(const uint8_t *record, size_t record_len,
                           const uint8_t *bank, size_t bank_len,
                           uint8_t *file, size_t file_len,
                           uint32_t *length);

/* Sets `*value` to the screen value of a nine-bit colour, 0 to 511: red x
 * 65,536 + green x 256 + blue. Replies: 10.
 * A refusal sets `*value` to 0. */
uint8_t narephon_screen_value(uint32_t colour, uint32_t *value);

/* Packs a picture into a map of two bytes an entry and 256 definitions of 32
 * bytes, with the fewest tiles there can be, turns included. The picture is
 * NAREPHON_PICTURE bytes, 256 rows of 160, high half left; `map_len` is
 * NAREPHON_MAP, `definitions_len` NAREPHON_DEFINITIONS. At most `allowed` tiles
 * are named, 256 or fewer; `offset` is the palette offset of every entry, 15 or
 * less. `*count` becomes the number of tiles. Replies: 3, 12, 11.
 * A refusal leaves `map` and `definitions` as they were and sets `*count` to 0. */
uint8_t narephon_pack(const uint8_t *picture, size_t picture_len,
                      uint32_t allowed, uint32_t offset,
                      uint8_t *map, size_t map_len,
                      uint8_t *definitions, size_t definitions_len,
                      uint32_t *count);

/* Sets `*count` to the fewest tiles that draw a picture of NAREPHON_PICTURE
 * bytes: what narephon_pack counts with 256 allowed, without its buffers.
 * Replies: 3, 11.
 * A refusal sets `*count` to 0. */
uint8_t narephon_fewest(const uint8_t *picture, size_t picture_len, uint32_t *count);

/* A desk has NAREPHON_SEATS seats of 2,155 bytes, one after the other. A free seat
 * is all 0. A held seat is a byte 1, its member's number in two bytes, high first,
 * and its member's record of version 2, one that narephon_check_record accepts. A
 * number is any of 16 bits, 0 too, and no number holds two seats.
 *
 * `desk_len` is NAREPHON_DESK. Every call below but narephon_desk_start judges the
 * whole desk, the seats of others too, and where it is not of this form it is 21:
 * 16, 17 and 18 do not come. No call puts a stored record on a desk: such a record
 * is served by the calls above. */

/* Makes all bytes of `desk` 0, whatever they were: every seat is free.
 * Replies: 3.
 * A refusal leaves `desk` as it was. */
uint8_t narephon_desk_start(uint8_t *desk, size_t desk_len);

/* Gives `member` the first free seat, with the record of the reset state. A member
 * who has a seat is 22, on a full desk too. Replies: 21, 22, 24.
 * A refusal leaves `desk` as it was. */
uint8_t narephon_desk_open(uint8_t *desk, size_t desk_len, uint16_t member);

/* Makes the seat of `member` free, all of its bytes 0. Replies: 21, 23.
 * A refusal leaves `desk` as it was. */
uint8_t narephon_desk_close(uint8_t *desk, size_t desk_len, uint16_t member);

/* Does what narephon_next_frame does with the record of `member`, and changes
 * nothing else of the desk. Replies: 21, 23.
 * A refusal leaves `desk` as it was. */
uint8_t narephon_desk_next_frame(uint8_t *desk, size_t desk_len, uint16_t member);

/* Does what narephon_write_register does with the record of `member`, and changes
 * nothing else of the desk. Replies: 21, 23, 9, 10.
 * A refusal leaves `desk` as it was, a half-sent colour still held. */
uint8_t narephon_desk_write_register(uint8_t *desk, size_t desk_len, uint16_t member,
                                     uint8_t number, uint8_t value);

/* Does what narephon_write_port does with the record of `member`, and changes
 * nothing else of the desk. Replies: 21, 23, 9, 10.
 * A refusal leaves `desk` as it was. */
uint8_t narephon_desk_write_port(uint8_t *desk, size_t desk_len, uint16_t member,
                                 uint16_t port, uint8_t value);

/* Does what narephon_read_register does with the record of `member`. It changes
 * nothing of the desk. Replies: 21, 23, 9.
 * A refusal sets `*value` to 0. */
uint8_t narephon_desk_read_register(const uint8_t *desk, size_t desk_len, uint16_t member,
                                    uint8_t number, uint8_t *value);

/* Does what narephon_read_port does with the record of `member`. It changes
 * nothing of the desk. Replies: 21, 23, 9.
 * A refusal sets `*value` to 0. */
uint8_t narephon_desk_read_port(const uint8_t *desk, size_t desk_len, uint16_t member,
                                uint16_t port, uint8_t *value);

/* Does what narephon_draw does with the record of `member`. It changes nothing of
 * the desk. Replies: 21, 23, 1, 2, 3, 6, 7, 5, 8.
 * A refusal leaves `dots` as it was. */
uint8_t narephon_desk_draw(const uint8_t *desk, size_t desk_len, uint16_t member,
                           const uint8_t *ula, size_t ula_len,
                           const uint8_t *tile, size_t tile_len,
                           uint32_t line, uint16_t *dots, size_t dots_len);

#ifdef __cplusplus
}
#endif

#endif
