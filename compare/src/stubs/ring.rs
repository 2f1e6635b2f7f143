//! Stands in for the crate ring: `open_initial` of fingerprint.rs names it. Document 01 leaves packet protection
//! behind, so nothing here runs it.

pub mod aead {
    pub struct Algorithm;

    pub static AES_128_GCM: Algorithm = Algorithm;

    #[derive(Debug)]
    pub struct Unspecified;

    pub struct UnboundKey;

    impl UnboundKey {
        pub fn new(_algorithm: &Algorithm, _key: &[u8]) -> Result<Self, Unspecified> {
            unimplemented!("a stub")
        }
    }

    pub struct Nonce;

    impl Nonce {
        pub fn assume_unique_for_key(_value: [u8; 12]) -> Self {
            unimplemented!("a stub")
        }
    }

    pub struct Aad;

    impl Aad {
        pub fn from(_bytes: &[u8]) -> Self {
            unimplemented!("a stub")
        }
    }

    pub struct LessSafeKey;

    impl LessSafeKey {
        pub fn new(_key: UnboundKey) -> Self {
            unimplemented!("a stub")
        }

        pub fn open_in_place<'a>(
            &self,
            _nonce: Nonce,
            _aad: Aad,
            _in_out: &'a mut [u8],
        ) -> Result<&'a mut [u8], Unspecified> {
            unimplemented!("a stub")
        }
    }
}
