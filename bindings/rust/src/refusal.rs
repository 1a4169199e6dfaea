//! Refusals.
use std::error::Error;
use std::fmt;

/// Why a call did nothing: one number each, section 3 of docs/RULES.md. Nothing that was lent to the call has changed. A later version may have more.
#[derive(Clone, Copy, Debug, PartialEq, Eq, Hash, PartialOrd, Ord)]
#[repr(u8)]
#[non_exhaustive]
// from include/mesh.table: refusals
pub enum Refusal {
    /// The frame has no bytes.
    FrameEmpty = 1,
    /// The mesh frame has fewer than 5 bytes.
    FrameShort = 2,
    /// The first byte is not a mesh frame's.
    NotMesh = 3,
    /// The body is too short for its type.
    BodyShort = 4,
    /// The frame has over 8,192 bytes, or would have.
    FrameLong = 5,
    /// The hop count is 0.
    HopsNone = 6,
    /// The hop count is over 8.
    HopsMany = 7,
    /// The uplink id is over 4095.
    UplinkIdLarge = 8,
    /// The data rate is over 15.
    DrLarge = 9,
    /// The rssi is over 0.
    RssiLarge = 10,
    /// The rssi is under -255.
    RssiSmall = 11,
    /// The snr is under -32.
    SnrSmall = 12,
    /// The snr is over 31.
    SnrLarge = 13,
    /// The delay is 0.
    DelayNone = 14,
    /// The transmit power is over 15.
    TxPowerLarge = 15,
    /// The delay is over 16.
    DelayLarge = 16,
    /// The frequency is too large.
    FrequencyLarge = 17,
    /// The frequency is not a multiple of 100 Hz, or of 200 Hz from 2.4 GHz up.
    FrequencyStep = 18,
    /// An item's value has over 255 bytes, or a path over 42 entries.
    ItemLong = 19,
    /// The length of a heartbeat is not a multiple of 6.
    HeartbeatLength = 20,
    /// The output has too little room for the answer.
    OutputShort = 21,
    /// The payload is open already, with two or more items.
    OpenMany = 22,
    /// The payload is open already, with one item.
    OpenOne = 23,
    /// The size of the cache is 0 or over 64.
    CacheSize = 24,
    /// A key has 16 bytes, or 32 digits.
    KeyLength = 25,
    /// The text of the key has a byte that is no hex digit.
    KeyDigit = 26,
    /// The packet has no MIC.
    MicMissing = 27,
    /// A frequency has 3 bytes.
    FrequencyLength = 28,
    /// The code of a type, of a content or of an item's kind is none, or a number is wider than its field.
    TypeLarge = 29,
    /// The line has an odd count of digits, or a byte that is no hex digit.
    LineDigits = 30,
    /// The frequency would be read as another.
    FrequencyOther = 38,
    /// A run does not lie inside its buffer.
    Outside = 45,
}
// end

// from include/mesh.table: texts
impl Refusal {
    /// Every refusal, by its number.
    pub const ALL: &'static [Refusal] = &[
        Refusal::FrameEmpty,
        Refusal::FrameShort,
        Refusal::NotMesh,
        Refusal::BodyShort,
        Refusal::FrameLong,
        Refusal::HopsNone,
        Refusal::HopsMany,
        Refusal::UplinkIdLarge,
        Refusal::DrLarge,
        Refusal::RssiLarge,
        Refusal::RssiSmall,
        Refusal::SnrSmall,
        Refusal::SnrLarge,
        Refusal::DelayNone,
        Refusal::TxPowerLarge,
        Refusal::DelayLarge,
        Refusal::FrequencyLarge,
        Refusal::FrequencyStep,
        Refusal::ItemLong,
        Refusal::HeartbeatLength,
        Refusal::OutputShort,
        Refusal::OpenMany,
        Refusal::OpenOne,
        Refusal::CacheSize,
        Refusal::KeyLength,
        Refusal::KeyDigit,
        Refusal::MicMissing,
        Refusal::FrequencyLength,
        Refusal::TypeLarge,
        Refusal::LineDigits,
        Refusal::FrequencyOther,
        Refusal::Outside,
    ];

    fn text(self) -> &'static str {
        match self {
            Refusal::FrameEmpty => "the frame has no bytes",
            Refusal::FrameShort => "the mesh frame has fewer than 5 bytes",
            Refusal::NotMesh => "the first byte is not a mesh frame's",
            Refusal::BodyShort => "the body is too short for its type",
            Refusal::FrameLong => "the frame has over 8,192 bytes, or would have",
            Refusal::HopsNone => "the hop count is 0",
            Refusal::HopsMany => "the hop count is over 8",
            Refusal::UplinkIdLarge => "the uplink id is over 4095",
            Refusal::DrLarge => "the data rate is over 15",
            Refusal::RssiLarge => "the rssi is over 0",
            Refusal::RssiSmall => "the rssi is under -255",
            Refusal::SnrSmall => "the snr is under -32",
            Refusal::SnrLarge => "the snr is over 31",
            Refusal::DelayNone => "the delay is 0",
            Refusal::TxPowerLarge => "the transmit power is over 15",
            Refusal::DelayLarge => "the delay is over 16",
            Refusal::FrequencyLarge => "the frequency is too large",
            Refusal::FrequencyStep => "the frequency is not a multiple of 100 Hz, or of 200 Hz from 2.4 GHz up",
            Refusal::ItemLong => "an item's value has over 255 bytes, or a path over 42 entries",
            Refusal::HeartbeatLength => "the length of a heartbeat is not a multiple of 6",
            Refusal::OutputShort => "the output has too little room for the answer",
            Refusal::OpenMany => "the payload is open already, with two or more items",
            Refusal::OpenOne => "the payload is open already, with one item",
            Refusal::CacheSize => "the size of the cache is 0 or over 64",
            Refusal::KeyLength => "a key has 16 bytes, or 32 digits",
            Refusal::KeyDigit => "the text of the key has a byte that is no hex digit",
            Refusal::MicMissing => "the packet has no MIC",
            Refusal::FrequencyLength => "a frequency has 3 bytes",
            Refusal::TypeLarge => "the code of a type, of a content or of an item's kind is none, or a number is wider than its field",
            Refusal::LineDigits => "the line has an odd count of digits, or a byte that is no hex digit",
            Refusal::FrequencyOther => "the frequency would be read as another",
            Refusal::Outside => "a run does not lie inside its buffer",
        }
    }
}
// end

impl Refusal {
    /// Its number.
    pub fn number(self) -> u8 {
        self as u8
    }

    /// The refusal of a number, if there is one.
    pub fn from_number(number: u8) -> Option<Refusal> {
        Refusal::ALL.iter().copied().find(|r| r.number() == number)
    }

    /// The refusal that the library answered. A number that is none would be a fault of the library; so that no caller panics or
    /// takes it for a success, it is told as [`Refusal::Outside`].
    pub(crate) fn of(number: u8) -> Refusal {
        Refusal::from_number(number).unwrap_or(Refusal::Outside)
    }
}

impl fmt::Display for Refusal {
    fn fmt(&self, f: &mut fmt::Formatter<'_>) -> fmt::Result {
        f.write_str(self.text())
    }
}

impl Error for Refusal {}

#[cfg(test)]
mod tests {
    use super::Refusal;

    #[test]
    fn numbers_ascend() {
        let numbers: Vec<u8> = Refusal::ALL.iter().map(|r| r.number()).collect();
        assert!(numbers.windows(2).all(|two| two[0] < two[1]));
        for n in 0..=255 {
            assert_eq!(Refusal::from_number(n).map(Refusal::number), numbers.contains(&n).then_some(n));
        }
        assert_eq!(Refusal::of(99), Refusal::Outside);
        assert_eq!(Refusal::of(21), Refusal::OutputShort);
    }

    #[test]
    fn sentences_differ() {
        let mut texts: Vec<String> = Refusal::ALL.iter().map(|r| r.to_string()).collect();
        assert_eq!(texts[5], "the hop count is 0");
        texts.sort();
        texts.dedup();
        assert_eq!(texts.len(), Refusal::ALL.len());
    }
}
