//! The entries of the static library. `build.rs` says which of them it has.

/// Reads the input, writes its listing into the lent room, and answers a number, the length written
/// and a place, packed: number + length·2^8 + place·2^40.
// A slice is passed as its address and its length, which is the library's form too.
#[allow(improper_ctypes_definitions)]
pub type Entry = unsafe extern "C" fn(input: &[u8], room: &mut [u8]) -> u64;

/// Calls an entry, which reads the input and writes into the room alone.
pub fn call(entry: Entry, input: &[u8], room: &mut [u8]) -> u64 {
    // SAFETY: both are lent for the call, and the entry keeps neither
    unsafe { entry(input, room) }
}

macro_rules! entries {
    ($($constant:ident: $symbol:ident),*) => {
        #[allow(improper_ctypes)]
        extern "C" {
            $(#[cfg($symbol)] fn $symbol(input: &[u8], room: &mut [u8]) -> u64;)*
        }
        $(
            #[cfg($symbol)]
            pub const $constant: Option<Entry> = Some($symbol);
            #[cfg(not($symbol))]
            pub const $constant: Option<Entry> = None;
        )*
    };
}

entries!(CLIMB: filter_climb, LEX: filter_lex, COMPILE: filter_compile);
