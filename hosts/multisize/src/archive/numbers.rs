//! Kinds, axes and energies, and the numbers by which the archive knows them.

use super::declared::{HostMethod, HostSize};
use crate::method::{Energy, Method};
use crate::picture::{Kind, Size};
use crate::seams::Axis;

pub fn kind_number(kind: Kind) -> u8 {
    match kind {
        Kind::Grey => 0,
        Kind::Rgb => 1,
    }
}

pub fn axis_number(axis: Axis) -> u8 {
    match axis {
        Axis::Vertical => 0,
        Axis::Horizontal => 1,
    }
}

/// A size as the archive takes it.
pub fn host_size(size: Size) -> HostSize {
    HostSize {
        width: size.width,
        height: size.height,
        kind: kind_number(size.kind),
    }
}

/// A method as the archive takes it.
pub fn host_method(method: Method) -> HostMethod {
    let energy = match method.energy {
        Energy::Edge => 0,
        Energy::Flat => 1,
        Energy::Forward => 2,
    };
    HostMethod { energy }
}

/// The size that the archive gives.
pub fn size_of(size: HostSize) -> Size {
    match size.kind {
        0 => Size::grey(size.width, size.height),
        1 => Size::rgb(size.width, size.height),
        other => unreachable!("the archive has no kind {other}"),
    }
}

/// The method that the archive gives.
pub fn method_of(method: HostMethod) -> Method {
    match method.energy {
        0 => Energy::Edge.into(),
        1 => Energy::Flat.into(),
        2 => Energy::Forward.into(),
        other => unreachable!("the archive has no energy {other}"),
    }
}
