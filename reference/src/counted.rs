//! Things that files try, and how often each was tried.

use std::collections::BTreeMap;

/// A thing that is counted, under a name.
pub trait Counted: Copy + Ord {
    /// All such things.
    fn all() -> Vec<Self>;

    fn name(self) -> String;
}

/// How often each of all such things was tried.
#[derive(Clone, Debug)]
pub struct Tally<T> {
    counts: BTreeMap<T, u64>,
}

impl<T: Counted> Default for Tally<T> {
    /// None yet.
    fn default() -> Tally<T> {
        Tally {
            counts: T::all().into_iter().map(|thing| (thing, 0)).collect(),
        }
    }
}

impl<T: Counted> Tally<T> {
    /// Counts what one file tries.
    pub fn add(&mut self, tried: impl IntoIterator<Item = T>) {
        for thing in tried {
            *self.counts.entry(thing).or_default() += 1;
        }
    }

    /// Each name with its count.
    pub fn counts(&self) -> impl Iterator<Item = (String, u64)> + '_ {
        self.counts
            .iter()
            .map(|(thing, &count)| (thing.name(), count))
    }

    /// How often that was tried which was tried least.
    pub fn least(&self) -> u64 {
        self.counts.values().copied().min().unwrap_or(0)
    }
}

/// An enum of such things, each with its name.
macro_rules! counted {
    (
        $(#[$of_enum:meta])*
        pub enum $thing:ident {
            $($variant:ident => $name:literal,)+
        }
    ) => {
        $(#[$of_enum])*
        #[derive(Clone, Copy, Debug, PartialEq, Eq, PartialOrd, Ord)]
        pub enum $thing {
            $($variant,)+
        }

        impl $crate::counted::Counted for $thing {
            fn all() -> Vec<$thing> {
                vec![$($thing::$variant),+]
            }

            fn name(self) -> String {
                match self {
                    $($thing::$variant => $name,)+
                }
                .to_string()
            }
        }
    };
}

pub(crate) use counted;
