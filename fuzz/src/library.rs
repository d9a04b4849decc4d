//! The library's functions, from their one declaration (`siljuvatt::calls!`).

use siljuvatt::raw::{self, Answer, Argument};

/// What a function is handed for an argument, and what it answers.
pub type Raw<K> = <K as Argument>::Raw;
pub type RawAnswer<A> = <A as Answer>::Raw;

macro_rules! library {
    (@length $name:ident $argument:ident $length:ident) => {
        (stringify!($name), stringify!($argument))
    };
    ($(
        $function:ident as $name:ident($($argument:ident $([$length:ident])?: $kind:ty),*) -> $answer:ty;
    )*) => {
        /// What is compared with the model: the library itself, or in tests a faulty one. A bool of C is a byte here,
        /// so that only 0 and 1 pass.
        ///
        /// # Safety
        ///
        /// A pointer is good for as many bytes as the length behind it says, one without a length for what it points
        /// to.
        #[allow(clippy::missing_safety_doc, clippy::too_many_arguments)]
        pub trait Library {
            $(unsafe fn $name(&self, $($argument: Raw<$kind> $(, $length: usize)?),*) -> RawAnswer<$answer>;)*
        }

        /// The functions of libsiljuvatt.a.
        pub struct Linked;

        impl Library for Linked {
            $(unsafe fn $name(&self, $($argument: Raw<$kind> $(, $length: usize)?),*) -> RawAnswer<$answer> {
                raw::$function($($argument $(, $length)?),*)
            })*
        }

        /// The functions, numbered as they are declared.
        #[allow(non_camel_case_types)]
        #[derive(Clone, Copy, Debug, PartialEq, Eq)]
        pub enum Function {
            $($name),*
        }

        /// All of them, in the order of the numbers.
        pub fn functions() -> Vec<Function> {
            vec![$(Function::$name),*]
        }

        /// Their names, in the order of the numbers.
        pub const FUNCTIONS: &[&str] = &[$(stringify!($name)),*];

        /// The names of each function's arguments that are lent, in the order of the numbers.
        pub fn lent() -> Vec<Vec<&'static str>> {
            let arguments: &[&[(&str, &str)]] = &[$(&[$((stringify!($argument), stringify!($kind))),*]),*];
            let is_lent = |argument: &&(&str, &str)| argument.1.starts_with('&');
            let names = |arguments: &&[(&'static str, &str)]| arguments.iter().filter(is_lent).map(|a| a.0).collect();
            arguments.iter().map(names).collect()
        }

        /// Each argument that has a length, behind the name of its function.
        pub const WITH_LENGTH: &[(&str, &str)] =
            &[$($($(library!(@length $name $argument $length),)?)*)*];
    };
}

siljuvatt::calls!(library);

#[cfg(test)]
mod tests {
    use super::*;

    #[test]
    fn numbers_are_places() {
        assert_eq!(FUNCTIONS[Function::watch_check as usize], "watch_check");
        let lent = lent();
        assert_eq!(lent.len(), FUNCTIONS.len());
        assert_eq!(lent[Function::read as usize], ["station", "store", "start"]);
        assert!(lent[Function::version as usize].is_empty());
        let of_read = WITH_LENGTH.iter().filter(|of| of.0 == "read");
        assert!(of_read.eq(&[("read", "station"), ("read", "store")]));
    }

    /// In the header's order, so that a look at one finds the other.
    #[test]
    fn every_function_of_the_header_is_declared() {
        let header = include_str!("../../library/include/siljuvatt.h");
        let declared = header
            .lines()
            .filter(|line| line.starts_with("SILJUVATT_USE_ANSWER"))
            .filter_map(|line| line.split_once(" siljuvatt_"))
            .filter_map(|(_, rest)| rest.split_once('('))
            .map(|(name, _)| name);
        assert_eq!(declared.collect::<Vec<_>>(), FUNCTIONS);
    }
}
