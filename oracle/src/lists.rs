//! Enums whose values are listed: each value is written once, in its list.

macro_rules! lists {
    ($(#[$of_enum:meta])* $enum:ident {
        $($(#[$of_list:meta])* $list:ident: [$($value:ident),* $(,)?];)*
    }) => {
        $(#[$of_enum])*
        #[derive(Clone, Copy, Debug, PartialEq, Eq)]
        pub enum $enum {
            $($($value,)*)*
        }

        $($(#[$of_list])* pub const $list: &[$enum] = &[$($enum::$value),*];)*
    };
}

pub(crate) use lists;
