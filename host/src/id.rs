//! Numbers of rows: three types, so that one given for another does not compile.

use std::fmt;
use std::num::NonZeroU32;

macro_rules! id {
    ($(#[$doc:meta])* $name:ident) => {
        $(#[$doc])*
        #[derive(Debug, Clone, Copy, PartialEq, Eq, PartialOrd, Ord, Hash)]
        pub struct $name(NonZeroU32);

        impl $name {
            /// Nothing for 0, which names no row.
            pub(crate) fn new(number: u32) -> Option<$name> {
                NonZeroU32::new(number).map($name)
            }

            /// The number, from 1.
            pub fn number(self) -> u32 {
                self.0.get()
            }
        }

        impl fmt::Display for $name {
            fn fmt(&self, f: &mut fmt::Formatter<'_>) -> fmt::Result {
                self.0.fmt(f)
            }
        }
    };
}

id! {
    /// The number of a state. States are numbered as they are first named.
    StateId
}

id! {
    /// The number of a transition. One counter numbers transitions and regions.
    TransitionId
}

id! {
    /// The number of a region, a block of actions. One counter numbers transitions and regions.
    RegionId
}
