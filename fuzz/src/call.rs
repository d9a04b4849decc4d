//! The calls with their arguments, and how they are printed.

use std::fmt;

use crate::argument::{MadeUp, Value};
use crate::library::{Function, FUNCTIONS};

/// The parts that last from call to call.
#[derive(Clone, Copy, Debug, PartialEq, Eq)]
pub enum Part {
    Station,
    Store,
    Master,
    Watch,
}

/// Bytes that a call is lent.
#[derive(Clone, Debug, PartialEq, Eq)]
pub enum Bytes {
    /// Some for this call alone.
    Own(Vec<u8>),
    /// Those of a part that lasts.
    Lasting(Part),
}

pub const STATION: Bytes = Bytes::Lasting(Part::Station);
pub const STORE: Bytes = Bytes::Lasting(Part::Store);
pub const MASTER: Bytes = Bytes::Lasting(Part::Master);
pub const WATCH: Bytes = Bytes::Lasting(Part::Watch);

/// The place of a number that a call may write.
#[derive(Clone, Copy, Debug, PartialEq, Eq)]
pub struct Place;

macro_rules! call {
    ($(
        $function:ident as $name:ident($($argument:ident $([$length:ident])?: $kind:ty),*) -> $answer:ty;
    )*) => {
        /// A call with its arguments, as it was made up. Variants have the names of the functions.
        #[allow(non_camel_case_types)]
        #[derive(Clone, Debug, PartialEq, Eq)]
        pub enum Call {
            $($name { $($argument: <fn($kind) as MadeUp>::Value),* }),*
        }

        impl Call {
            /// The function called.
            pub fn function(&self) -> Function {
                match self {
                    $(Call::$name { .. } => Function::$name),*
                }
            }

            /// The arguments with their names.
            pub fn arguments(&self) -> Vec<(&'static str, &dyn Value)> {
                match self {
                    $(Call::$name { $($argument),* } => {
                        vec![$((stringify!($argument), $argument as &dyn Value)),*]
                    }),*
                }
            }
        }
    };
}

siljuvatt::calls!(call);

impl Call {
    /// The function's name.
    pub fn name(&self) -> &'static str {
        FUNCTIONS[self.function() as usize]
    }
}

/// Bytes in hexadecimal, with their count.
pub struct Hex<'a>(pub &'a [u8]);

impl fmt::Display for Hex<'_> {
    fn fmt(&self, f: &mut fmt::Formatter) -> fmt::Result {
        write!(f, "{} bytes", self.0.len())?;
        if let [first, rest @ ..] = self.0 {
            if rest.len() >= 64 && rest.iter().all(|byte| byte == first) {
                return write!(f, ", all {first:02X}");
            }
        }
        let digits: Vec<String> = self.0.iter().map(|byte| format!("{byte:02X}")).collect();
        write!(f, " {{{}}}", digits.join(" "))
    }
}

impl fmt::Display for Call {
    fn fmt(&self, f: &mut fmt::Formatter) -> fmt::Result {
        let arguments = self.arguments().into_iter();
        let shown = arguments.map(|(name, value)| format!("{name}{}", value.shown()));
        let shown: Vec<String> = shown.collect();
        write!(f, "siljuvatt_{}({})", self.name(), shown.join(", "))
    }
}

#[cfg(test)]
mod tests {
    use super::*;

    #[test]
    fn calls_are_printed_with_their_arguments() {
        let call = Call::receive {
            station: STATION,
            store: STORE,
            bus: 1,
            image: Bytes::Own(vec![0x96, 0xE1, 0x07]),
        };
        assert_eq!(
            call.to_string(),
            "siljuvatt_receive(station, store, bus 1, image 3 bytes {96 E1 07})"
        );
        let call = Call::master_timeout { master: MASTER };
        assert_eq!(call.to_string(), "siljuvatt_master_timeout(master)");
        let call = Call::read {
            station: STATION,
            store: Bytes::Own(vec![0xB7; 999]),
            slot: 3,
            start: Place,
        };
        assert_eq!(
            call.to_string(),
            "siljuvatt_read(station, store 999 bytes, all B7, slot 3, start)"
        );
        assert_eq!(Call::version {}.to_string(), "siljuvatt_version()");
    }
}
