//! The declarations of the archive's functions, as `crates/exports/src` has
//! them. Each slice there is a pointer and a length here.

/// The size of a picture; kind 0 is grey, 1 is rgb.
#[repr(C)]
pub struct HostSize {
    pub width: usize,
    pub height: usize,
    pub kind: u8,
}

/// The method that seams are found by; energy 0 is edge, 1 is
/// flat, 2 is forward.
#[repr(C)]
pub struct HostMethod {
    pub energy: u8,
}

/// The number of a refusal and value 0, or number 0 and the value.
#[repr(C)]
pub struct Answer {
    pub number: u64,
    pub value: u64,
}

/// The number of a refusal and twice 0, or number 0, how the removal ended (1
/// done, 2 narrow, 3 spent, 4 blocked) and the count of seams cut.
#[repr(C)]
pub struct Ended {
    pub number: u64,
    pub ending: u64,
    pub count: u64,
}

/// The number of a refusal and 0 in all else, or number 0 and what a file says
/// of its picture.
#[repr(C)]
pub struct FileAnswer {
    pub number: u64,
    pub size: HostSize,
    pub method: HostMethod,
    pub depth: u64,
    pub growth: u64,
}

/// The number of a refusal and 0 in all else, or number 0 and the size of the
/// picture shown.
#[repr(C)]
pub struct SizeAnswer {
    pub number: u64,
    pub size: HostSize,
}

extern "C" {
    pub fn multisize_energies(
        picture: *const u8,
        picture_len: usize,
        size: HostSize,
        method: HostMethod,
        r: usize,
        out: *mut u32,
        out_len: usize,
    ) -> u64;

    pub fn multisize_step_costs(
        picture: *const u8,
        picture_len: usize,
        size: HostSize,
        method: HostMethod,
        r: usize,
        left: *mut u32,
        left_len: usize,
        up: *mut u32,
        up_len: usize,
        right: *mut u32,
        right_len: usize,
    ) -> u64;

    pub fn multisize_row(
        picture: *const u8,
        picture_len: usize,
        size: HostSize,
        r: usize,
        out: *mut u8,
        out_len: usize,
    ) -> Answer;

    pub fn multisize_find(
        picture: *const u8,
        picture_len: usize,
        size: HostSize,
        method: HostMethod,
        axis: u8,
        seam: *mut u16,
        seam_len: usize,
        work: *mut u8,
        work_len: usize,
    ) -> Answer;

    pub fn multisize_cut(
        picture: *mut u8,
        picture_len: usize,
        size: HostSize,
        method: HostMethod,
        axis: u8,
        seam: *mut u16,
        seam_len: usize,
        work: *mut u8,
        work_len: usize,
    ) -> Answer;

    pub fn multisize_find_marked(
        picture: *const u8,
        picture_len: usize,
        marks: *const u8,
        marks_len: usize,
        size: HostSize,
        method: HostMethod,
        axis: u8,
        seam: *mut u16,
        seam_len: usize,
        work: *mut u8,
        work_len: usize,
    ) -> Answer;

    pub fn multisize_cut_marked(
        picture: *mut u8,
        picture_len: usize,
        marks: *mut u8,
        marks_len: usize,
        size: HostSize,
        method: HostMethod,
        axis: u8,
        seam: *mut u16,
        seam_len: usize,
        work: *mut u8,
        work_len: usize,
    ) -> Answer;

    pub fn multisize_remove(
        picture: *mut u8,
        picture_len: usize,
        marks: *mut u8,
        marks_len: usize,
        size: HostSize,
        method: HostMethod,
        budget: u16,
        work: *mut u8,
        work_len: usize,
    ) -> Ended;

    pub fn multisize_retarget(
        picture: *const u8,
        picture_len: usize,
        size: HostSize,
        method: HostMethod,
        rows: usize,
        columns: usize,
        out: *mut u8,
        out_len: usize,
        work: *mut u8,
        work_len: usize,
    ) -> Answer;

    pub fn multisize_build(
        picture: *const u8,
        picture_len: usize,
        size: HostSize,
        method: HostMethod,
        depth: usize,
        growth: usize,
        out: *mut u8,
        out_len: usize,
        work: *mut u8,
        work_len: usize,
    ) -> Answer;

    pub fn multisize_check(
        file: *const u8,
        file_len: usize,
        work: *mut u8,
        work_len: usize,
    ) -> FileAnswer;

    pub fn multisize_read(
        file: *const u8,
        file_len: usize,
        picture: *mut u8,
        picture_len: usize,
        map: *mut u16,
        map_len: usize,
        work: *mut u8,
        work_len: usize,
    ) -> FileAnswer;

    pub fn multisize_show(
        file: *const u8,
        file_len: usize,
        wanted: usize,
        out: *mut u8,
        out_len: usize,
        work: *mut u8,
        work_len: usize,
    ) -> SizeAnswer;

    pub fn multisize_row_at(
        samples: *const u8,
        samples_len: usize,
        kind: u8,
        numbers: *const u16,
        numbers_len: usize,
        wanted: usize,
        out: *mut u8,
        out_len: usize,
    ) -> Answer;
}
