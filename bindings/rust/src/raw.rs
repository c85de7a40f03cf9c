//! The calls as the archives export them; include/zibrunnos.h says what each does. A slice is a pointer and a length.

extern "C" {
    pub fn zib_read_u32_le(bytes: *const u8, bytes_len: usize, at: usize, value: *mut u32) -> bool;
    pub fn zib_find_audio_end(file: *const u8, file_len: usize, end: *mut usize) -> u32;
    pub fn zib_ape_tag_start(
        file: *const u8,
        file_len: usize,
        footer: usize,
        there: *mut u32,
        start: *mut usize,
    ) -> u32;
    pub fn zib_ends_with_id3v1(file: *const u8, file_len: usize) -> bool;
    pub fn zib_adjust_gain_value(current: u8, steps: i32, wrap: bool) -> u8;

    pub fn zib_is_utf8(text: *const u8, text_len: usize) -> bool;
    pub fn zib_lossy_size(text: *const u8, text_len: usize, room: usize, size: *mut usize) -> u32;
    pub fn zib_lossy_into(text: *const u8, text_len: usize, out: *mut u8, out_len: usize, written: *mut usize) -> u32;

    pub fn zib_parse_undo(text: *const u8, text_len: usize, left: *mut i32, right: *mut i32, wrap: *mut u32) -> u32;
    pub fn zib_format_undo_value(
        left: i32,
        right: i32,
        wrap: bool,
        out: *mut u8,
        out_len: usize,
        written: *mut usize,
    ) -> u32;
    pub fn zib_accumulate_undo(
        text: *const u8,
        text_len: usize,
        left: i32,
        right: i32,
        newleft: *mut i32,
        newright: *mut i32,
    ) -> u32;
    pub fn zib_format_minmax(least: u8, greatest: u8, out: *mut u8, out_len: usize, written: *mut usize) -> u32;
    pub fn zib_range_wraps_out(key: *const u8, key_len: usize, value: *const u8, value_len: usize, steps: i32) -> bool;
    pub fn zib_steps_to_db(steps: i32, minus: *mut u32, millionths: *mut u64, rest: *mut u64) -> u32;
    pub fn zib_shift_stored_value(
        key: *const u8,
        key_len: usize,
        value: *const u8,
        value_len: usize,
        steps: i32,
        moved: *mut u32,
        out: *mut u8,
        out_len: usize,
        written: *mut usize,
    ) -> u32;
    pub fn zib_parse_slip(text: *const u8, text_len: usize, left: *mut i32, right: *mut i32, mode: *mut u32) -> u32;
    pub fn zib_resolve_mode(file: *const u8, file_len: usize, mode: u32, resolved: *mut u32) -> u32;
    pub fn zib_level_by_slip(
        slip: *const u8,
        slip_len: usize,
        file: *const u8,
        file_len: usize,
        left: *mut u8,
        left_len: usize,
        right: *mut u8,
        right_len: usize,
        out: *mut u8,
        out_len: usize,
        written: *mut usize,
        peaks: *mut usize,
    ) -> u32;

    pub fn zib_tally(
        gains: *const u8,
        gains_len: usize,
        steps: i32,
        wrap: bool,
        low: *mut usize,
        high: *mut usize,
        lost: *mut usize,
        least: *mut u32,
        greatest: *mut u32,
    ) -> bool;
    pub fn zib_read_gains(
        file: *const u8,
        file_len: usize,
        left: *mut u8,
        left_len: usize,
        right: *mut u8,
        right_len: usize,
        left_count: *mut usize,
        right_count: *mut usize,
    ) -> u32;
    pub fn zib_level_mp3(
        file: *const u8,
        file_len: usize,
        left_steps: i32,
        right_steps: i32,
        mode: u32,
        out: *mut u8,
        out_len: usize,
        written: *mut usize,
        peaks: *mut usize,
    ) -> u32;
    pub fn zib_undo_mp3(
        file: *const u8,
        file_len: usize,
        out: *mut u8,
        out_len: usize,
        written: *mut usize,
        peaks: *mut usize,
    ) -> u32;

    pub fn zib_amplitudes(left_steps: i32, right_steps: i32, left: *mut f64, right: *mut f64) -> u32;
    pub fn zib_fixed_range(text: *const u8, text_len: usize, first: *mut u32, second: *mut u32) -> bool;
    pub fn zib_compare_range_views(text: *const u8, text_len: usize) -> u8;

    pub fn zib_is_key(key: *const u8, key_len: usize) -> bool;
    pub fn zib_which_key(key: *const u8, key_len: usize) -> usize;
    pub fn zib_item_at(
        area: *const u8,
        area_len: usize,
        at: usize,
        there: *mut u32,
        flags: *mut u32,
        key_start: *mut usize,
        key_end: *mut usize,
        value_start: *mut usize,
        value_end: *mut usize,
    ) -> u32;
    pub fn zib_get(
        area: *const u8,
        area_len: usize,
        count: usize,
        key: *const u8,
        key_len: usize,
        there: *mut u32,
        start: *mut usize,
        size: *mut usize,
        repeated: *mut u32,
    ) -> u32;
    pub fn zib_get_undo_gain(area: *const u8, area_len: usize, count: usize, there: *mut u32, steps: *mut i32) -> u32;
    pub fn zib_set(
        area: *const u8,
        area_len: usize,
        count: usize,
        key: *const u8,
        key_len: usize,
        value: *const u8,
        value_len: usize,
        out: *mut u8,
        out_len: usize,
        items: *mut usize,
        written: *mut usize,
    ) -> u32;
    pub fn zib_remove(
        area: *const u8,
        area_len: usize,
        count: usize,
        key: *const u8,
        key_len: usize,
        out: *mut u8,
        out_len: usize,
        items: *mut usize,
        written: *mut usize,
    ) -> u32;
    pub fn zib_remove_replaygain(
        area: *const u8,
        area_len: usize,
        count: usize,
        out: *mut u8,
        out_len: usize,
        items: *mut usize,
        written: *mut usize,
    ) -> u32;
    pub fn zib_drop_undone(
        area: *const u8,
        area_len: usize,
        count: usize,
        out: *mut u8,
        out_len: usize,
        items: *mut usize,
        written: *mut usize,
    ) -> u32;
    pub fn zib_take_mp3gain(
        area: *const u8,
        area_len: usize,
        count: usize,
        out: *mut u8,
        out_len: usize,
        items: *mut usize,
        written: *mut usize,
    ) -> u32;
    pub fn zib_set_undo_gain(
        area: *const u8,
        area_len: usize,
        count: usize,
        left: i32,
        right: i32,
        wrap: bool,
        out: *mut u8,
        out_len: usize,
        items: *mut usize,
        written: *mut usize,
    ) -> u32;
    pub fn zib_set_minmax(
        area: *const u8,
        area_len: usize,
        count: usize,
        least: u8,
        greatest: u8,
        out: *mut u8,
        out_len: usize,
        items: *mut usize,
        written: *mut usize,
    ) -> u32;
    pub fn zib_set_replaygain(
        area: *const u8,
        area_len: usize,
        count: usize,
        track_gain: *const u8,
        track_gain_len: usize,
        track_peak: *const u8,
        track_peak_len: usize,
        album_gain: *const u8,
        album_gain_len: usize,
        album_peak: *const u8,
        album_peak_len: usize,
        algorithm: *const u8,
        algorithm_len: usize,
        out: *mut u8,
        out_len: usize,
        items: *mut usize,
        written: *mut usize,
    ) -> u32;

    pub fn zib_find_ape_footer(file: *const u8, file_len: usize, there: *mut u32, footer: *mut usize) -> u32;
    pub fn zib_read_ape_tag(
        file: *const u8,
        file_len: usize,
        area: *mut u8,
        area_len: usize,
        there: *mut u32,
        count: *mut usize,
        written: *mut usize,
    ) -> u32;
    pub fn zib_serialize_ape_tag(
        area: *const u8,
        area_len: usize,
        count: usize,
        out: *mut u8,
        out_len: usize,
        written: *mut usize,
    ) -> u32;
    pub fn zib_split_ape_tag(
        file: *const u8,
        file_len: usize,
        front: *mut usize,
        from: *mut usize,
        to: *mut usize,
    ) -> u32;
    pub fn zib_ape_tag_parts(
        file: *const u8,
        file_len: usize,
        front: *mut usize,
        from: *mut usize,
        to: *mut usize,
    ) -> u32;
    pub fn zib_cut_ape_tag(
        file: *const u8,
        file_len: usize,
        front: *mut usize,
        from: *mut usize,
        to: *mut usize,
    ) -> u32;
    pub fn zib_replace_ape_tag(
        file: *const u8,
        file_len: usize,
        area: *const u8,
        area_len: usize,
        count: usize,
        out: *mut u8,
        out_len: usize,
        written: *mut usize,
    ) -> u32;
    pub fn zib_bytes_needed(probe: *const u8, probe_len: usize, total: usize, needed: *mut usize) -> u32;
    pub fn zib_read_end(
        end: *const u8,
        end_len: usize,
        total: usize,
        area: *mut u8,
        area_len: usize,
        there: *mut u32,
        count: *mut usize,
        written: *mut usize,
    ) -> u32;
    pub fn zib_rewrite_ape_tail(
        buf: *mut u8,
        buf_len: usize,
        total: *mut usize,
        area: *const u8,
        area_len: usize,
        count: usize,
        end: *mut usize,
    ) -> u32;
    pub fn zib_rewrite_within(
        buf: *mut u8,
        buf_len: usize,
        total: *mut usize,
        area: *const u8,
        area_len: usize,
        count: usize,
        budget: usize,
        whole: *mut u32,
        end: *mut usize,
    ) -> u32;
    pub fn zib_gate(file: *const u8, file_len: usize, start: *mut usize, end: *mut usize, count: *mut usize) -> u32;
    pub fn zib_set_ape_item(
        file: *const u8,
        file_len: usize,
        key: *const u8,
        key_len: usize,
        value: *const u8,
        value_len: usize,
        out: *mut u8,
        out_len: usize,
        written: *mut usize,
    ) -> u32;
    pub fn zib_remove_ape_item(
        file: *const u8,
        file_len: usize,
        key: *const u8,
        key_len: usize,
        out: *mut u8,
        out_len: usize,
        written: *mut usize,
    ) -> u32;
    pub fn zib_level(
        file: *const u8,
        file_len: usize,
        left: *mut u8,
        left_len: usize,
        right: *mut u8,
        right_len: usize,
        left_steps: i32,
        right_steps: i32,
        wrap: bool,
        out: *mut u8,
        out_len: usize,
        written: *mut usize,
        peaks: *mut usize,
    ) -> u32;
    pub fn zib_undo(
        file: *const u8,
        file_len: usize,
        left: *mut u8,
        left_len: usize,
        right: *mut u8,
        right_len: usize,
        out: *mut u8,
        out_len: usize,
        written: *mut usize,
        peaks: *mut usize,
    ) -> u32;
    pub fn zib_shift_stored_gain(
        area: *const u8,
        area_len: usize,
        count: usize,
        steps: i32,
        wrap: bool,
        out: *mut u8,
        out_len: usize,
        items: *mut usize,
        written: *mut usize,
    ) -> u32;

    pub fn zib_set_length(
        file: *const u8,
        file_len: usize,
        key: *const u8,
        key_len: usize,
        value: *const u8,
        value_len: usize,
        bytes: *mut usize,
    ) -> u32;
    pub fn zib_remove_length(
        file: *const u8,
        file_len: usize,
        key: *const u8,
        key_len: usize,
        bytes: *mut usize,
    ) -> u32;
    pub fn zib_level_length(
        file: *const u8,
        file_len: usize,
        left: *const u8,
        left_len: usize,
        right: *const u8,
        right_len: usize,
        left_steps: i32,
        right_steps: i32,
        wrap: bool,
        bytes: *mut usize,
    ) -> u32;
    pub fn zib_level_by_slip_length(
        slip: *const u8,
        slip_len: usize,
        file: *const u8,
        file_len: usize,
        left: *const u8,
        left_len: usize,
        right: *const u8,
        right_len: usize,
        bytes: *mut usize,
    ) -> u32;
    pub fn zib_undo_length(
        file: *const u8,
        file_len: usize,
        left: *const u8,
        left_len: usize,
        right: *const u8,
        right_len: usize,
        bytes: *mut usize,
    ) -> u32;

    pub fn zib_list_tag(file: *const u8, file_len: usize, text: *mut [u8; 147_473]) -> usize;
}
