//! Stand-in for onerom_config: the version with its order; boards and MCU variants are never decoded (document 01 leaves them out).

pub mod fw {
    use core::fmt;

    /// Document 01 settles the order: major, minor, patch, build.
    #[derive(Debug, Clone, Copy, PartialEq, Eq, PartialOrd, Ord, serde::Serialize, serde::Deserialize)]
    pub struct FirmwareVersion {
        major: u16,
        minor: u16,
        patch: u16,
        build: u16,
    }

    impl FirmwareVersion {
        pub const fn new(major: u16, minor: u16, patch: u16, build: u16) -> Self {
            Self { major, minor, patch, build }
        }
    }

    impl fmt::Display for FirmwareVersion {
        fn fmt(&self, f: &mut fmt::Formatter<'_>) -> fmt::Result {
            write!(f, "{}.{}.{}.{}", self.major, self.minor, self.patch, self.build)
        }
    }
}

pub mod hw {
    #[derive(Debug, Clone, Copy, PartialEq, Eq, serde::Serialize, serde::Deserialize)]
    pub struct Model;

    #[derive(Debug, Clone, Copy, PartialEq, Eq, serde::Serialize, serde::Deserialize)]
    pub struct Board;

    impl Board {
        pub fn try_from_str(_: &str) -> Option<Board> {
            None
        }

        pub fn model(&self) -> Model {
            Model
        }
    }
}

pub mod mcu {
    /// The schema format's bases. Nothing here gets that far.
    pub const RP235X_BASE_FLASH: u32 = 0x1000_0000;
    pub const RP235X_BASE_SRAM: u32 = 0x2000_0000;

    #[derive(Debug, Clone, Copy, PartialEq, Eq, serde::Serialize, serde::Deserialize)]
    pub struct Variant;

    impl Variant {
        pub fn try_from_str(_: &str) -> Option<Variant> {
            None
        }
    }
}
