//! The refusals.

use std::fmt;

macro_rules! refusals {
    ($($number:literal $name:ident $word:literal $when:literal)*) => {
        /// Why a call was refused. A refused call has changed nothing. The numbers are the C functions'; later versions
        /// may have more.
        #[derive(Clone, Copy, Debug, PartialEq, Eq, Hash)]
        #[repr(u32)]
        #[non_exhaustive]
        pub enum Refusal {
            $(#[doc = $when] $name = $number,)*
        }

        impl Refusal {
            /// All of them, by number.
            pub const ALL: &'static [Refusal] = &[$(Refusal::$name),*];

            /// Its word.
            pub fn word(self) -> &'static str {
                match self {
                    $(Refusal::$name => $word,)*
                }
            }

            /// When it is given.
            pub fn when(self) -> &'static str {
                match self {
                    $(Refusal::$name => $when,)*
                }
            }
        }
    };
}

refusals! {
    1 Settings "settings" "a setting is out of its limits, or the index has more entries than capacity or blocks allow, or more blocks than its maximum"
    2 ShortMemory "short memory" "a lent part is shorter than the settings ask"
    3 FrameOrder "frame order" "the frame is not above the last one recorded"
    4 HashFull "hash full" "the block's hash has no empty cell: the memory is damaged"
    5 ShortList "short list" "there are more pairs than output cells"
    6 SlotNumber "slot number" "there is no such slot"
    7 NotHeld "not held" "what is to be released is not held by this process"
    8 OtherOwner "other owner" "the slot or lock has another owner"
    9 NoOwner "no owner" "owner 0 is no owner"
    10 UnusedMark "unused mark" "the greatest 64-bit number stands for an unused slot and cannot be a mark"
    11 SharedSlot "shared slot" "the slot is held by a shared registration and is released by a shared release"
    12 NoSuchMark "no such mark" "the mark is not registered with this slot and owner"
    13 Registry "registry" "the mark has 65,535 holders already, or no record is empty: the registry is damaged"
    14 Card "card" "the lock answers are not one for each slot, each 0, 1 or 2"
    15 Probe "probe" "a reader's lock could not be asked"
}

impl Refusal {
    /// The refusal of a number, if there is one.
    pub fn from_number(number: u32) -> Option<Refusal> {
        Refusal::ALL.iter().copied().find(|refusal| refusal.number() == number)
    }

    /// Its number.
    pub fn number(self) -> u32 {
        self as u32
    }
}

/// Number, word and when.
impl fmt::Display for Refusal {
    fn fmt(&self, f: &mut fmt::Formatter<'_>) -> fmt::Result {
        write!(f, "refused {} ({}): {}", self.number(), self.word(), self.when())
    }
}

impl std::error::Error for Refusal {}
