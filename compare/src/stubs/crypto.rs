//! Stands in for the original's module `crypto`: `open_initial` of fingerprint.rs names it. Document 01 leaves packet
//! protection behind, so nothing here runs it.

pub(crate) const INITIAL_SALT_V1: [u8; 20] = [0; 20];

pub(crate) struct InitialKeys {
    pub key: [u8; 16],
    pub iv: [u8; 12],
    pub hp: [u8; 16],
}

pub(crate) fn derive_initial_keys(_salt: &[u8], _dcid: &[u8]) -> InitialKeys {
    unimplemented!("a stub")
}

pub(crate) fn aes_ecb_block(_key: &[u8; 16], _block: &[u8; 16]) -> [u8; 16] {
    unimplemented!("a stub")
}
