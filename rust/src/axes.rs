//! The orders of the three axes.

/// An order of the axes: its letters name which old axis comes first, second and third.
///
/// By [`AxisOrder::Yzx`] the new x is the old y, the new y the old z, and the new z the old x.
///
/// ```
/// use trial_archive::{Archive, AxisOrder, Refusal};
///
/// # fn main() -> Result<(), Refusal> {
/// let mut archive = Archive::start([4, 5, 6], 8)?;
/// archive.insert(1, [1, 2, 3])?;
/// archive.insert(2, [3, 0, 5])?;
///
/// let rope_load_first = archive.rearranged(AxisOrder::Zxy)?;
/// assert_eq!(rope_load_first.reference(), [6, 4, 5]);
/// assert_eq!(rope_load_first.total(), archive.total());
/// let trials: Vec<_> = rope_load_first.trials().map(|trial| (trial.number, trial.point)).collect();
/// assert_eq!(trials, [(2, [5, 3, 0]), (1, [3, 1, 2])]);
///
/// assert_eq!(rope_load_first.rearranged(AxisOrder::Zxy.inverse())?, archive);
/// # Ok(())
/// # }
/// ```
#[derive(Clone, Copy, Debug, PartialEq, Eq, Hash)]
#[repr(u8)]
pub enum AxisOrder {
    /// All axes as they were.
    Xyz = 0,
    /// y and z exchanged.
    Xzy = 1,
    /// x and y exchanged.
    Yxz = 2,
    /// The first axis goes last.
    Yzx = 3,
    /// The last axis goes first.
    Zxy = 4,
    /// x and z exchanged.
    Zyx = 5,
}

impl AxisOrder {
    /// Every order, by its number.
    pub const ALL: [AxisOrder; 6] = [
        AxisOrder::Xyz,
        AxisOrder::Xzy,
        AxisOrder::Yxz,
        AxisOrder::Yzx,
        AxisOrder::Zxy,
        AxisOrder::Zyx,
    ];

    /// Its number in the C interface.
    pub fn number(self) -> u64 {
        self as u64
    }

    /// The order of that number, if there is one: 0 to 5.
    pub fn from_number(number: u64) -> Option<AxisOrder> {
        AxisOrder::ALL.into_iter().find(|order| order.number() == number)
    }

    /// The order that undoes this one.
    pub fn inverse(self) -> AxisOrder {
        match self {
            AxisOrder::Yzx => AxisOrder::Zxy,
            AxisOrder::Zxy => AxisOrder::Yzx,
            own => own,
        }
    }

    /// The point, or anything else that has one value for each axis, in this order.
    pub fn rearrange<T>(self, [x, y, z]: [T; 3]) -> [T; 3] {
        match self {
            AxisOrder::Xyz => [x, y, z],
            AxisOrder::Xzy => [x, z, y],
            AxisOrder::Yxz => [y, x, z],
            AxisOrder::Yzx => [y, z, x],
            AxisOrder::Zxy => [z, x, y],
            AxisOrder::Zyx => [z, y, x],
        }
    }
}
