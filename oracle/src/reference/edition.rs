//! "A parameter is made under one of the two editions and keeps it" (02, C-19).

#[derive(Clone, Copy, Debug, PartialEq)]
pub enum Edition {
    First,
    Second,
}

impl Edition {
    /// The edition of this number, if it is known.
    pub fn numbered(number: u8) -> Option<Self> {
        match number {
            1 => Some(Edition::First),
            2 => Some(Edition::Second),
            _ => None,
        }
    }

    /// "Under the first, everything is as now. Under the second, counts go from 1 to
    /// 1,024".
    pub fn ceiling(self) -> usize {
        match self {
            Edition::First => 128,
            Edition::Second => 1024,
        }
    }
}
