//! The method that seams are found by.

/// What a pixel costs the seam that takes it. By `Edge` and `Flat` it is the pixel's
/// energy: the differences to its right and to its lower neighbour, the channels added;
/// what is taken where there is none is the rule's own. By `Forward` it is what is added
/// to the picture where the pixel is taken out. Further rules may follow.
#[derive(Clone, Copy, Debug, Default, PartialEq, Eq, Hash)]
#[non_exhaustive]
pub enum Energy {
    /// In the last column the difference to the left neighbour is taken, in the last row
    /// that to the upper one. At width 1 the first is 0, at height 1 the second.
    #[default]
    Edge,
    /// In the last column the first difference is 0, in the last row the second. So the
    /// right and the bottom edge are lost first.
    Flat,
    /// The differences of the pixels that come to stand beside each other: the left and
    /// the right neighbour; and where the seam comes from a side, also the pixel above
    /// and the neighbour on that side. [`Carver::step_costs`](crate::Carver::step_costs)
    /// gives the three costs of each pixel.
    Forward,
}

impl Energy {
    /// All of them.
    pub const ALL: &'static [Energy] = &[Energy::Edge, Energy::Flat, Energy::Forward];

    /// The word that names it in a file.
    ///
    /// ```
    /// assert_eq!(multisize::Energy::Flat.word(), "flat");
    /// ```
    pub fn word(self) -> &'static str {
        match self {
            Energy::Edge => "edge",
            Energy::Flat => "flat",
            Energy::Forward => "forward",
        }
    }

    /// The energy that a word names, if there is one.
    ///
    /// ```
    /// use multisize::Energy;
    ///
    /// assert_eq!(Energy::named("edge"), Some(Energy::Edge));
    /// assert_eq!(Energy::named("Edge"), None);
    /// ```
    pub fn named(word: &str) -> Option<Energy> {
        let mut all = Energy::ALL.iter().copied();
        all.find(|energy| energy.word() == word)
    }
}

/// The method that seams are found by. Further fields may follow; what they are by
/// default changes no seam.
///
/// ```
/// use multisize::{Energy, Method};
///
/// let method = Method::default().with_energy(Energy::Flat);
/// assert_eq!(method, Energy::Flat.into());
/// assert_eq!(Method::default(), Energy::Edge.into());
/// ```
#[derive(Clone, Copy, Debug, Default, PartialEq, Eq, Hash)]
#[non_exhaustive]
pub struct Method {
    /// What a pixel costs.
    pub energy: Energy,
}

impl Method {
    /// The same method with another energy.
    #[must_use]
    pub const fn with_energy(mut self, energy: Energy) -> Method {
        self.energy = energy;
        self
    }
}

/// The method with this energy, and by default otherwise.
impl From<Energy> for Method {
    fn from(energy: Energy) -> Method {
        Method::default().with_energy(energy)
    }
}
