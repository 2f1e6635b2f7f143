//! The original's module: its four files, put beside this one by `compare/run`, and the module that they lean on.
//! Much of them is not called here, and their tests leave imports unused: those two lints are off for them alone.

#[path = "../stubs/crypto.rs"]
mod crypto;

#[allow(dead_code, unused_imports)]
pub(crate) mod fingerprint;
#[allow(dead_code, unused_imports)]
pub(crate) mod profiles;
#[allow(dead_code, unused_imports)]
pub(crate) mod tls;
#[allow(dead_code, unused_imports)]
pub(crate) mod varint;
