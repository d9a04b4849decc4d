//! The calls of the static library, declared once: as `include/siljuvatt.h` has them, and over slices (`slices`).

/// Hands the declaration of every call to a macro: `siljuvatt::calls!(with)` is `with! { .. }` of the lines below.
///
/// A line is a call: the C function, the call's name without the prefix, arguments and answer. An argument
/// `name[length]: slice` is two of the C function, a pointer and the number of bytes that it is good for.
#[macro_export]
macro_rules! calls {
    ($with:ident) => {
        $with! {
            siljuvatt_version as version() -> u32;
            siljuvatt_piece_count as piece_count(format: u8, size: usize) -> u32;
            siljuvatt_write_piece as write_piece(
                format: u8, fields[fields_length]: &[u8], packet[packet_length]: &[u8], k: usize,
                output[output_length]: &mut [u8]
            ) -> u32;
            siljuvatt_station_new as station_new(station[station_length]: &mut [u8], format: u8) -> u32;
            siljuvatt_open as open(
                station[station_length]: &mut [u8], bus: u8, fields[fields_length]: &[u8]
            ) -> u32;
            siljuvatt_close as close(station[station_length]: &mut [u8], slot: usize) -> u32;
            siljuvatt_receive as receive(
                station[station_length]: &mut [u8], store[store_length]: &mut [u8], bus: u8, image[image_length]: &[u8]
            ) -> u32;
            siljuvatt_read as read(
                station[station_length]: &[u8], store[store_length]: &[u8], slot: usize, start: &mut usize
            ) -> u32;
            siljuvatt_filter_accepts as filter_accepts(code: u16, mask: u16, id: u16) -> bool;
            siljuvatt_row_accepts as row_accepts(row: &[u8; 8], id: u16) -> bool;
            siljuvatt_master_new as master_new(master[master_length]: &mut [u8]) -> u32;
            siljuvatt_master_start as master_start(master[master_length]: &mut [u8], kind: u8, node: u8) -> u32;
            siljuvatt_master_reply as master_reply(
                master[master_length]: &mut [u8], bus: u8, node: u8, function: u8
            ) -> u32;
            siljuvatt_master_timeout as master_timeout(master[master_length]: &mut [u8]) -> u32;
            siljuvatt_watch_new as watch_new(watch[watch_length]: &mut [u8], now: u32) -> u32;
            siljuvatt_watch_heard as watch_heard(watch[watch_length]: &mut [u8], bus: u8, now: u32) -> u32;
            siljuvatt_watch_check as watch_check(watch[watch_length]: &mut [u8], now: u32) -> u32;
        }
    };
}

/// What a call is handed.
pub trait Argument {
    /// What the C function takes for it: a number as it is, or a pointer.
    type Raw;

    /// The pointer or number, and how many bytes the pointer is good for where the C function is told.
    fn hand_over(self) -> (Self::Raw, usize);
}

impl Argument for &[u8] {
    type Raw = *const u8;

    fn hand_over(self) -> (*const u8, usize) {
        (self.as_ptr(), self.len())
    }
}

impl Argument for &mut [u8] {
    type Raw = *mut u8;

    fn hand_over(self) -> (*mut u8, usize) {
        (self.as_mut_ptr(), self.len())
    }
}

/// What the C function is not told a length of.
macro_rules! handed_alone {
    ($($kind:ty as $raw:ty),*) => {$(
        impl Argument for $kind {
            type Raw = $raw;

            fn hand_over(self) -> ($raw, usize) {
                (self, 0)
            }
        }
    )*};
}

handed_alone!(u8 as u8, u16 as u16, u32 as u32, usize as usize);
handed_alone!(&[u8; 8] as *const [u8; 8], &mut usize as *mut usize);

/// What a call answers.
pub trait Answer {
    /// What the C function answers. A bool of C is kept as the byte that it is, so that one that is no bool is seen.
    type Raw;

    /// The answer.
    fn of(raw: Self::Raw) -> Self;
}

impl Answer for u32 {
    type Raw = u32;

    fn of(raw: u32) -> u32 {
        raw
    }
}

impl Answer for bool {
    type Raw = u8;

    fn of(raw: u8) -> bool {
        raw != 0
    }
}

macro_rules! declare {
    ($(
        $function:ident as $name:ident($($argument:ident $([$length:ident])?: $kind:ty),*) -> $answer:ty;
    )*) => {
        extern "C" {
            $(
                #[doc = concat!("`", stringify!($function), "` of the header.")]
                pub fn $function(
                    $($argument: <$kind as Argument>::Raw $(, $length: usize)?),*
                ) -> <$answer as Answer>::Raw;
            )*
        }

        /// The calls over slices. None asks anything of its caller.
        ///
        /// The library keeps no pointer, and reads and writes only within the lengths that it is given. A slice's
        /// pointer is good for its length, and what a call writes to is borrowed by `&mut`, so nothing else that it is
        /// given overlaps with it. The library is proved to end without a panic at every input.
        pub mod slices {
            use super::{Answer, Argument};

            $(
                #[doc = concat!("`", stringify!($function), "` of the header.")]
                #[inline]
                pub fn $name($($argument: $kind),*) -> $answer {
                    $(let $argument = $argument.hand_over();)*
                    // SAFETY: as said of the module; each length is that of the slice before it.
                    Answer::of(unsafe {
                        super::$function($($argument.0 $(, { let $length = $argument.1; $length })?),*)
                    })
                }
            )*
        }
    };
}

calls!(declare);
