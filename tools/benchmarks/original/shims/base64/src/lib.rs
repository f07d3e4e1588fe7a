//! Stands in for the crate base64, of which Debian 12 has an older one: its names, and an encoder without padding. The original encodes ids of
//! awakeables by it, which no case makes.

pub mod alphabet {
    pub struct Alphabet(pub(crate) &'static [u8; 64]);

    pub const URL_SAFE: Alphabet =
        Alphabet(b"ABCDEFGHIJKLMNOPQRSTUVWXYZabcdefghijklmnopqrstuvwxyz0123456789-_");
}

pub mod engine {
    use crate::alphabet::Alphabet;

    pub enum DecodePaddingMode {
        Indifferent,
    }

    pub struct GeneralPurposeConfig;

    impl GeneralPurposeConfig {
        pub const fn new() -> Self {
            Self
        }

        pub const fn with_decode_padding_mode(self, _mode: DecodePaddingMode) -> Self {
            self
        }

        pub const fn with_encode_padding(self, _is_padded: bool) -> Self {
            self
        }
    }

    pub struct GeneralPurpose {
        digits: &'static [u8; 64],
    }

    impl GeneralPurpose {
        pub const fn new(alphabet: &Alphabet, _config: GeneralPurposeConfig) -> Self {
            Self { digits: alphabet.0 }
        }
    }

    pub trait Engine {
        fn encode(&self, input: impl AsRef<[u8]>) -> String;
    }

    impl Engine for GeneralPurpose {
        fn encode(&self, input: impl AsRef<[u8]>) -> String {
            let (mut text, mut bits, mut held) = (String::new(), 0u32, 0);
            for byte in input.as_ref() {
                (bits, held) = (bits << 8 | u32::from(*byte), held + 8);
                while held >= 6 {
                    held -= 6;
                    text.push(self.digits[(bits >> held & 63) as usize] as char);
                }
            }
            if held > 0 {
                text.push(self.digits[(bits << (6 - held) & 63) as usize] as char);
            }
            text
        }
    }
}

pub use engine::Engine;
