//! The functions of `l4map.h`, and what they read and write.

#[repr(C)]
pub struct Handle {
    pub at: *mut u8,
}

#[repr(C)]
#[derive(Default)]
pub struct EntryReply {
    pub held: u32,
    pub frame: u32,
    pub rights: u32,
    pub status: u32,
}

#[repr(C)]
#[derive(Default)]
pub struct OriginReply {
    pub known: u32,
    pub space: u32,
    pub page: u32,
}

#[repr(C)]
#[derive(Default)]
pub struct SendReply {
    pub absent: u32,
    pub norights: u32,
    pub origin: u32,
    pub lost: u32,
    pub extended: u32,
    pub linked: u32,
}

#[repr(C)]
#[derive(Clone, Copy, Default)]
pub struct Mapping {
    pub space: u32,
    pub page: u32,
    pub frame: u32,
    pub rights: u32,
    pub status: u32,
    pub has_origin: u32,
    pub origin_space: u32,
    pub origin_page: u32,
}

#[repr(C)]
#[derive(Clone, Copy, Default)]
pub struct Change {
    pub space: u32,
    pub page: u32,
    pub held: u32,
    pub frame: u32,
    pub rights: u32,
}

extern "C" {
    pub fn l4map_version() -> u32;
    pub fn l4map_new(db: *mut Handle, spaces: u32, bits: u32, frames: u32) -> u32;
    pub fn l4map_free(db: *mut Handle);
    pub fn l4map_send(
        db: *mut Handle,
        from: u16,
        to: u16,
        window: u32,
        words: *const u32,
        n: usize,
        reply: *mut SendReply,
    ) -> u32;
    pub fn l4map_unmap(db: *mut Handle, space: u16, control: u32, words: *mut u32, n: usize)
        -> u32;
    pub fn l4map_clear(db: *mut Handle, space: u16, status: *mut u32) -> u32;
    pub fn l4map_access(
        db: *mut Handle,
        space: u16,
        address: u32,
        kind: u32,
        made: *mut u32,
    ) -> u32;
    pub fn l4map_entry(db: *mut Handle, space: u16, page: u32, reply: *mut EntryReply) -> u32;
    pub fn l4map_origin(db: *mut Handle, space: u16, page: u32, reply: *mut OriginReply) -> u32;
    pub fn l4map_mappings(
        db: *mut Handle,
        space: u16,
        page: u32,
        mappings: *mut Mapping,
        n: usize,
        count: *mut usize,
    ) -> u32;
    pub fn l4map_space_mappings(
        db: *mut Handle,
        space: u16,
        page: u32,
        mappings: *mut Mapping,
        n: usize,
        count: *mut usize,
    ) -> u32;
    pub fn l4map_below(
        db: *mut Handle,
        space: u16,
        page: u32,
        from_space: u16,
        from_page: u32,
        mappings: *mut Mapping,
        n: usize,
        count: *mut usize,
    ) -> u32;
    pub fn l4map_note_changes(db: *mut Handle, on: u32) -> u32;
    pub fn l4map_changes(
        db: *mut Handle,
        from: usize,
        changes: *mut Change,
        n: usize,
        count: *mut usize,
    ) -> u32;
}
