//! Stand-in for onerom_gen: an overrides block is kept as it was read and not judged (document 01 leaves its decoding out).

pub mod firmware {
    #[derive(Debug, Clone, Default, serde::Serialize, serde::Deserialize)]
    pub struct ServeAlgParams {
        pub params: Vec<u8>,
    }

    #[derive(Debug, Clone, serde::Serialize, serde::Deserialize)]
    pub struct FirmwareConfig {
        pub bytes: Vec<u8>,
        pub serve_alg_params: Option<ServeAlgParams>,
    }

    impl FirmwareConfig {
        pub fn from_bytes(bytes: &[u8]) -> Result<Self, String> {
            Ok(Self { bytes: bytes.to_vec(), serve_alg_params: None })
        }
    }
}
