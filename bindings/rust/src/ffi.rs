//! The functions of the archive.

/// The status of a room that is too short.
pub const NO_ROOM: u8 = 6;

unsafe extern "C" {
    pub fn scale_info_ffi_check(input: *const u8, input_length: usize) -> u8;
    pub fn scale_info_ffi_prune(
        input: *const u8,
        input_length: usize,
        ids: *const u32,
        ids_length: usize,
        room: *mut u8,
        room_length: usize,
        count: *mut usize,
    ) -> u8;
    pub fn scale_info_ffi_json(
        input: *const u8,
        input_length: usize,
        room: *mut u8,
        room_length: usize,
        count: *mut usize,
    ) -> u8;
    pub fn scale_info_ffi_strip(
        input: *const u8,
        input_length: usize,
        room: *mut u8,
        room_length: usize,
        count: *mut usize,
    ) -> u8;
    pub fn scale_info_ffi_table(
        input: *const u8,
        input_length: usize,
        room: *mut u8,
        room_length: usize,
        count: *mut usize,
    ) -> u8;
    pub fn scale_info_ffi_find(
        input: *const u8,
        input_length: usize,
        path: *const u8,
        path_length: usize,
        room: *mut u32,
        room_length: usize,
        count: *mut usize,
    ) -> u8;
    pub fn scale_info_ffi_describe(
        input: *const u8,
        input_length: usize,
        id: u32,
        room: *mut u8,
        room_length: usize,
        count: *mut usize,
    ) -> u8;
    pub fn scale_info_ffi_value(
        input: *const u8,
        input_length: usize,
        id: u32,
        bytes: *const u8,
        bytes_length: usize,
        room: *mut u8,
        room_length: usize,
        count: *mut usize,
    ) -> u8;
    pub fn scale_info_ffi_encode(
        input: *const u8,
        input_length: usize,
        id: u32,
        json: *const u8,
        json_length: usize,
        room: *mut u8,
        room_length: usize,
        count: *mut usize,
    ) -> u8;
    pub fn scale_info_ffi_same(
        first: *const u8,
        first_length: usize,
        id: u32,
        second: *const u8,
        second_length: usize,
        other: u32,
        room: *mut u8,
        room_length: usize,
        count: *mut usize,
    ) -> u8;
    pub fn scale_info_ffi_changes(
        old: *const u8,
        old_length: usize,
        new: *const u8,
        new_length: usize,
        room: *mut u8,
        room_length: usize,
        count: *mut usize,
    ) -> u8;
}
