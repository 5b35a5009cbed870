/// An enum whose cases have rising numbers and a meaning in words.
macro_rules! numbered {
    ($(#[$about:meta])* $name:ident, $count:literal: $($case:ident = $number:literal, $meaning:literal;)*) => {
        $(#[$about])*
        #[derive(Clone, Copy, Debug, PartialEq, Eq, Hash)]
        #[repr(u8)]
        pub enum $name {
            $(#[doc = concat!(stringify!($number), ": ", $meaning, ".")] $case = $number,)*
        }

        impl $name {
            /// All of them, by rising number.
            pub const ALL: [$name; $count] = [$($name::$case),*];

            /// Its number.
            pub fn number(self) -> u8 {
                self as u8
            }

            /// The one with this number.
            pub fn from_number(number: u32) -> Option<$name> {
                $name::ALL.into_iter().find(|case| u32::from(case.number()) == number)
            }
        }

        impl std::fmt::Display for $name {
            fn fmt(&self, out: &mut std::fmt::Formatter) -> std::fmt::Result {
                out.write_str(match self {
                    $($name::$case => $meaning,)*
                })
            }
        }
    };
}

pub(crate) use numbered;
