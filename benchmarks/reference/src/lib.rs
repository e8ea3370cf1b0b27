//! The reference's operations as functions that C calls: vertical seams found,
//! with the cost alone as the answer, objects removed, retargets, and files.

use reference::{Axis, Columns, EnergyRule, Kind, Method, Rows, Size};
use std::slice::{from_raw_parts, from_raw_parts_mut};

/// A picture, the spaces for its seam, and the method, as C hands them over.
#[repr(C)]
pub struct Lent {
    picture: *mut u8,
    marks: *mut u8,
    seam: *mut u16,
    work: *mut u8,
    width: usize,
    height: usize,
    channels: usize,
    energy: u8,
}

impl Lent {
    fn method(&self) -> Method {
        let energy = match self.energy {
            0 => EnergyRule::Edge,
            1 => EnergyRule::Flat,
            _ => EnergyRule::Forward,
        };
        Method { energy }
    }

    fn size(&self) -> Size {
        Size {
            width: self.width,
            height: self.height,
            kind: if self.channels == 3 {
                Kind::Rgb
            } else {
                Kind::Grey
            },
        }
    }

    fn pixels(&self) -> usize {
        self.width * self.height
    }

    /// The picture, the seam's space and the work space.
    ///
    /// # Safety
    /// They have the lengths that the size says, and nothing else uses them.
    unsafe fn parts(&mut self) -> (&[u8], &mut [u16], &mut [u8]) {
        (
            from_raw_parts(self.picture, self.channels * self.pixels()),
            from_raw_parts_mut(self.seam, self.height),
            from_raw_parts_mut(self.work, 32 * self.pixels()),
        )
    }
}

/// # Safety
/// As for `Lent::parts`.
#[no_mangle]
pub unsafe extern "C" fn reference_find(lent: &mut Lent) -> u64 {
    let (size, method) = (lent.size(), lent.method());
    let (picture, seam, work) = lent.parts();
    let found = reference::find(picture, size, method, Axis::Vertical, seam, work);
    found.expect("a seam is found")
}

/// # Safety
/// As for `Lent::parts`, with a mark for each pixel.
#[no_mangle]
pub unsafe extern "C" fn reference_find_marked(lent: &mut Lent) -> u64 {
    let (size, method) = (lent.size(), lent.method());
    let marks = from_raw_parts(lent.marks, lent.pixels());
    let (picture, seam, work) = lent.parts();
    let found = reference::find_marked(picture, marks, size, method, Axis::Vertical, seam, work);
    found.expect("a seam is found")
}

/// The count of seams cut, with no limit to it.
///
/// # Safety
/// The picture, a mark for each pixel and the work space have the lengths that
/// the size says, and nothing else uses them.
#[no_mangle]
pub unsafe extern "C" fn reference_remove(lent: &mut Lent) -> u64 {
    let (size, pixels) = (lent.size(), lent.pixels());
    let picture = from_raw_parts_mut(lent.picture, lent.channels * pixels);
    let marks = from_raw_parts_mut(lent.marks, pixels);
    let work = from_raw_parts_mut(lent.work, 32 * pixels);
    let ended = reference::remove_object(picture, marks, size, lent.method(), u16::MAX, work);
    let (_, count) = ended.expect("objects are removed");
    u64::from(count)
}

/// The total.
///
/// # Safety
/// The picture and the work space of a retarget have the lengths that the size
/// says, `out` that of the picture left, and nothing else uses them.
#[no_mangle]
pub unsafe extern "C" fn reference_retarget(
    lent: &mut Lent,
    rows: usize,
    columns: usize,
    out: *mut u8,
) -> u64 {
    let (size, pixels) = (lent.size(), lent.pixels());
    let left = (size.width - columns) * (size.height - rows);
    let picture = from_raw_parts(lent.picture, lent.channels * pixels);
    let out = from_raw_parts_mut(out, lent.channels * left);
    let work = from_raw_parts_mut(lent.work, (32 + 66 * lent.channels) * pixels);
    let (method, rows, columns) = (lent.method(), Rows(rows), Columns(columns));
    let total = reference::retarget(picture, size, method, rows, columns, out, work);
    total.expect("the picture is retargeted")
}

/// The length of the file with the full map and the largest growth.
///
/// # Safety
/// The picture and the work space have the lengths that the size says, `out`
/// has `room` bytes, and nothing else uses them.
#[no_mangle]
pub unsafe extern "C" fn reference_build(lent: &mut Lent, out: *mut u8, room: usize) -> u64 {
    let (size, pixels) = (lent.size(), lent.pixels());
    let picture = from_raw_parts(lent.picture, lent.channels * pixels);
    let out = from_raw_parts_mut(out, room);
    let work = from_raw_parts_mut(lent.work, 32 * pixels);
    let (depth, growth) = (size.width - 1, size.width / 2);
    let length = reference::build(picture, size, lent.method(), depth, growth, out, work);
    length.expect("a file is built") as u64
}

/// The depth of a file.
///
/// # Safety
/// The file has `bytes` bytes and the picture's size, the work space the length
/// that the size says, and nothing else uses them.
#[no_mangle]
pub unsafe extern "C" fn reference_check(lent: &mut Lent, file: *const u8, bytes: usize) -> u64 {
    let file = from_raw_parts(file, bytes);
    let work = from_raw_parts_mut(lent.work, 32 * lent.pixels());
    let info = reference::check(file, work).expect("the file is accepted");
    info.depth as u64
}

/// The width shown.
///
/// # Safety
/// As for `reference_check`, and `out` has the length of the picture shown.
#[no_mangle]
pub unsafe extern "C" fn reference_show(
    lent: &mut Lent,
    file: *const u8,
    bytes: usize,
    wanted: usize,
    out: *mut u8,
) -> u64 {
    let file = from_raw_parts(file, bytes);
    let out = from_raw_parts_mut(out, wanted * lent.height * lent.channels);
    let work = from_raw_parts_mut(lent.work, 32 * lent.pixels());
    let size = reference::show(file, wanted, out, work).expect("the width is offered");
    size.width as u64
}
