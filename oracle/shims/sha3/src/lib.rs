//! Stands in for the hash that the original's onion names use. The filters never call it.

pub trait Digest: Sized {
    fn new() -> Self;
    fn update(&mut self, data: impl AsRef<[u8]>);
    fn finalize(self) -> [u8; 32];
}

pub struct Sha3_256;

impl Digest for Sha3_256 {
    fn new() -> Self {
        unimplemented!("no filter hashes")
    }

    fn update(&mut self, _data: impl AsRef<[u8]>) {
        unimplemented!("no filter hashes")
    }

    fn finalize(self) -> [u8; 32] {
        unimplemented!("no filter hashes")
    }
}
