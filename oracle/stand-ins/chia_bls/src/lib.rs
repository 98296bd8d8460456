//! Stand-in for `chia_bls`: the text names the type of a public key, and no form of the oracle ever makes one.

#[derive(Debug, Clone, Copy)]
pub struct PublicKey([u8; 48]);

impl PublicKey {
    pub fn to_bytes(&self) -> [u8; 48] {
        self.0
    }
}
