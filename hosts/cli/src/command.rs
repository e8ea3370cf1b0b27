//! What can be done.

use crate::inputs::Input;
use crate::outputs::Output;
use multisize::{Columns, Energy, Rows};
use std::ffi::OsString;

/// What is to be done.
pub enum Command {
    /// All of the help, or what it says of a command.
    Help(Option<String>),
    Version,
    Carve {
        picture: Input,
        width: Width,
        out: Output,
        energy: Energy,
    },
    Build {
        picture: Input,
        out: Output,
        depth: Option<usize>,
        growth: Option<usize>,
        energy: Energy,
    },
    Check {
        file: Input,
    },
    Info {
        file: Input,
        json: bool,
    },
    Show {
        file: Input,
        /// The widths, each with its place.
        shown: Vec<(usize, Output)>,
    },
    Seams {
        file: Input,
        out: Output,
        first: Option<usize>,
    },
    Table {
        file: Input,
        out: Output,
        long: bool,
    },
    Page {
        file: Input,
        out: Output,
        title: Option<OsString>,
    },
    Remove {
        picture: Input,
        marks: Marks,
        out: Output,
        budget: u16,
        energy: Energy,
    },
    Retarget {
        picture: Input,
        rows: Rows,
        columns: Columns,
        out: Output,
        energy: Energy,
    },
}

/// A wanted width, in columns or in hundredths of the picture's.
#[derive(Clone, Copy, Debug, PartialEq, Eq)]
pub enum Width {
    Columns(usize),
    Percent(u16),
}

impl Width {
    /// The columns of a picture of this width, hundredths rounded to the nearest.
    pub fn of(self, width: usize) -> usize {
        match self {
            Width::Columns(columns) => columns,
            Width::Percent(percent) => (width * usize::from(percent) + 50) / 100,
        }
    }
}

/// Where marks come from.
pub enum Marks {
    /// A grey picture of 0, 1 and 2.
    Numbered(Input),
    /// Pictures that aren't black where something is to be taken, or kept.
    Painted { take: Input, keep: Option<Input> },
}

impl Marks {
    pub fn inputs(&self) -> Vec<&Input> {
        match self {
            Marks::Numbered(marks) => vec![marks],
            Marks::Painted { take, keep } => [take].into_iter().chain(keep).collect(),
        }
    }
}

#[cfg(test)]
mod tests {
    use super::Width;

    #[test]
    fn hundredths_are_rounded_to_the_nearest() {
        assert_eq!(Width::Columns(7).of(480), 7);
        let percent = |percent, width| Width::Percent(percent).of(width);
        assert_eq!((percent(60, 480), percent(100, 3)), (288, 3));
        assert_eq!((percent(50, 3), percent(49, 3), percent(0, 3)), (2, 1, 0));
        assert_eq!(percent(u16::MAX, 512), 335_539);
    }
}
