//! Why a call failed.

use crate::Kind;
use std::fmt;

macro_rules! codes {
    ($($name:ident = $code:literal, $text:literal;)*) => {
        /// What failed, by the numbers of `gix_hash.h`.
        #[derive(Debug, Clone, Copy, PartialEq, Eq)]
        #[repr(u32)]
        #[non_exhaustive]
        pub enum Code {
            $(#[doc = $text] $name = $code,)*
            /// The library is a later one, and returned the code `detail`, which is not in this list.
            Unknown = u32::MAX,
        }

        impl Code {
            fn of(number: u32) -> Code {
                match number {
                    $($code => Code::$name,)*
                    _ => Code::Unknown,
                }
            }

            fn text(self) -> &'static str {
                match self {
                    $(Code::$name => $text,)*
                    Code::Unknown => "the library returned the code `detail`, which is not known",
                }
            }
        }
    };
}

codes! {
    BadLength = 1, "wrong length: an id has 40 or 64 digits (20 or 32 bytes), and a prefix 1 to 64 digits";
    BadDigit = 2, "a byte of the text is not a hex digit";
    BadKind = 3, "the kind is neither SHA-1 nor SHA-256";
    NoRoom = 4, "the buffer is too short";
    PrefixTooLong = 5, "the prefix has more digits than ids of the kind";
    OutOfRange = 6, "the position is not below the number of objects";
    Unsorted = 7, "the digest at position `detail` is below the one before it";
    NotUnique = 8, "another object has the same id";
    BadType = 9, "the type of the object is not one of the four";
    IndexTooShort = 16, "the bytes are too few for a pack index";
    Version1 = 17, "the pack index has version 1";
    BadMagic = 18, "not a pack index (bad magic number)";
    BadVersion = 19, "the pack index has version `detail`, not 2";
    WrongLength = 20, "the tables of the pack index do not fill its bytes";
    NamesFall = 21, "the id at position `detail` is below the one before it";
    WrongCount = 22, "the fan-out entry of the first byte `detail` is wrong";
    NoOffset = 23, "the 8-byte offset of the object at position `detail` is missing";
    LongOutOfOrder = 24, "the 8-byte offset of the object at position `detail` is not the next one";
    SpareLong = 25, "the 8-byte offset at position `detail` is unused";
    OffsetInHeader = 26, "the offset of the object at position `detail` is in the header of the pack";
    OffsetTooHigh = 27, "the offset of the object at position `detail` is 2^63 or more";
    WrongChecksum = 28, "the checksum of the pack index is wrong";
    OtherKind = 29, "the ids of the pack index are of kind `detail`, the other one";
}

/// Why a call failed.
#[derive(Debug, Clone, Copy, PartialEq, Eq)]
pub struct Error {
    /// What failed.
    pub code: Code,
    /// The number that the text of the code mentions, or 0.
    pub detail: u64,
}

impl Error {
    /// Ok for the code 0, and else its error.
    pub(crate) fn check(number: u32, detail: u64) -> Result<(), Error> {
        match Code::of(number) {
            _ if number == 0 => Ok(()),
            Code::Unknown => Err(Error { code: Code::Unknown, detail: u64::from(number) }),
            code => Err(Error { code, detail }),
        }
    }
}

impl fmt::Display for Error {
    fn fmt(&self, f: &mut fmt::Formatter<'_>) -> fmt::Result {
        let detail = match (self.code, u32::try_from(self.detail)) {
            (Code::OtherKind, Ok(kind)) => Kind::of(kind).to_string(),
            _ => self.detail.to_string(),
        };
        f.write_str(&self.code.text().replace("`detail`", &detail))
    }
}

impl std::error::Error for Error {}

#[cfg(test)]
mod tests {
    use super::*;

    #[test]
    fn codes_of_a_later_library() {
        let text = Error::check(99, 5).unwrap_err().to_string();
        assert_eq!(text, "the library returned the code 99, which is not known");
        assert_eq!(Error::check(29, 1), Err(Error { code: Code::OtherKind, detail: 1 }));
        let text = Error::check(29, 2).unwrap_err().to_string();
        assert_eq!(text, "the ids of the pack index are of kind sha256, the other one");
    }
}
