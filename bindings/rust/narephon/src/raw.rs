//! The exported functions, as `bindings/c/narephon.h` declares them.

#[link(name = "narephon", kind = "static")]
extern "C" {
    pub fn narephon_reset(record: *mut u8, record_len: usize) -> u8;
    pub fn narephon_check_record(record: *const u8, record_len: usize, place: *mut u32) -> u8;
    pub fn narephon_move_up(
        record: *const u8,
        record_len: usize,
        target: *mut u8,
        target_len: usize,
        place: *mut u32,
    ) -> u8;
    pub fn narephon_move_back(
        record: *const u8,
        record_len: usize,
        target: *mut u8,
        target_len: usize,
        place: *mut u32,
    ) -> u8;
    pub fn narephon_next_frame(record: *mut u8, record_len: usize) -> u8;
    pub fn narephon_write_register(record: *mut u8, record_len: usize, number: u8, value: u8)
        -> u8;
    pub fn narephon_write_port(record: *mut u8, record_len: usize, port: u16, value: u8) -> u8;
    pub fn narephon_read_register(
        record: *const u8,
        record_len: usize,
        number: u8,
        value: *mut u8,
    ) -> u8;
    pub fn narephon_read_port(
        record: *const u8,
        record_len: usize,
        port: u16,
        value: *mut u8,
    ) -> u8;
    pub fn narephon_draw(
        record: *const u8,
        record_len: usize,
        ula: *const u8,
        ula_len: usize,
        tile: *const u8,
        tile_len: usize,
        line: u32,
        dots: *mut u16,
        dots_len: usize,
    ) -> u8;
    pub fn narephon_draw_layers(
        record: *const u8,
        record_len: usize,
        ula: *const u8,
        ula_len: usize,
        tile: *const u8,
        tile_len: usize,
        layer2: *const u16,
        layer2_len: usize,
        sprites: *const u16,
        sprites_len: usize,
        line: u32,
        dots: *mut u16,
        dots_len: usize,
    ) -> u8;
    pub fn narephon_draw_traced(
        record: *const u8,
        record_len: usize,
        trace: *const u8,
        trace_len: usize,
        ula: *const u8,
        ula_len: usize,
        tile: *const u8,
        tile_len: usize,
        line: u32,
        dots: *mut u16,
        dots_len: usize,
        place: *mut u32,
    ) -> u8;
    pub fn narephon_draw_carried(
        record: *const u8,
        record_len: usize,
        trace: *const u8,
        trace_len: usize,
        ula: *const u8,
        ula_len: usize,
        tile: *const u8,
        tile_len: usize,
        dots: *mut u16,
        dots_len: usize,
        replies: *mut u8,
        replies_len: usize,
        places: *mut u16,
        places_len: usize,
    ) -> u8;
    pub fn narephon_read_scr(
        record: *mut u8,
        record_len: usize,
        bank: *mut u8,
        bank_len: usize,
        file: *const u8,
        file_len: usize,
        colours: *mut u32,
    ) -> u8;
    pub fn narephon_write_scr(
        record: *const u8,
        record_len: usize,
        bank: *const u8,
        bank_len: usize,
        file: *mut u8,
        file_len: usize,
        length: *mut u32,
    ) -> u8;
    pub fn narephon_screen_value(colour: u32, value: *mut u32) -> u8;
    pub fn narephon_pack(
        picture: *const u8,
        picture_len: usize,
        allowed: u32,
        offset: u32,
        map: *mut u8,
        map_len: usize,
        definitions: *mut u8,
        definitions_len: usize,
        count: *mut u32,
    ) -> u8;
    pub fn narephon_fewest(picture: *const u8, picture_len: usize, count: *mut u32) -> u8;
    pub fn narephon_desk_start(desk: *mut u8, desk_len: usize) -> u8;
    pub fn narephon_desk_open(desk: *mut u8, desk_len: usize, member: u16) -> u8;
    pub fn narephon_desk_close(desk: *mut u8, desk_len: usize, member: u16) -> u8;
    pub fn narephon_desk_next_frame(desk: *mut u8, desk_len: usize, member: u16) -> u8;
    pub fn narephon_desk_write_register(
        desk: *mut u8,
        desk_len: usize,
        member: u16,
        number: u8,
        value: u8,
    ) -> u8;
    pub fn narephon_desk_write_port(
        desk: *mut u8,
        desk_len: usize,
        member: u16,
        port: u16,
        value: u8,
    ) -> u8;
    pub fn narephon_desk_read_register(
        desk: *const u8,
        desk_len: usize,
        member: u16,
        number: u8,
        value: *mut u8,
    ) -> u8;
    pub fn narephon_desk_read_port(
        desk: *const u8,
        desk_len: usize,
        member: u16,
        port: u16,
        value: *mut u8,
    ) -> u8;
    pub fn narephon_desk_draw(
        desk: *const u8,
        desk_len: usize,
        member: u16,
        ula: *const u8,
        ula_len: usize,
        tile: *const u8,
        tile_len: usize,
        line: u32,
        dots: *mut u16,
        dots_len: usize,
    ) -> u8;
}
