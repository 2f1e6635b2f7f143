//! Stands in for the crate rand_core: only the names that the original uses.

/// tls.rs draws through these two; the `Tape` of this folder answers them.
pub trait RngCore {
    fn next_u64(&mut self) -> u64;
    fn fill_bytes(&mut self, dest: &mut [u8]);
}

/// fingerprint.rs's own tests seed a generator through it.
pub trait SeedableRng {
    fn seed_from_u64(state: u64) -> Self;
}
