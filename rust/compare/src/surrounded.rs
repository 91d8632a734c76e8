//! What is only read, among bytes that nothing may write.

use crate::check::{Fault, GUARD};
use crate::random::Random;

/// Bytes among others that nothing may write.
pub(crate) struct Surrounded {
    bytes: Vec<u8>,
    around: u8,
}

impl Surrounded {
    pub(crate) fn new(inner: &[u8], random: &mut Random) -> Surrounded {
        let around = random.next() as u8;
        let mut bytes = vec![around; GUARD];
        bytes.extend(inner);
        bytes.resize(bytes.len() + GUARD, around);
        Surrounded { bytes, around }
    }

    pub(crate) fn inner(&self) -> &[u8] {
        &self.bytes[GUARD..self.bytes.len() - GUARD]
    }

    /// Whether all is as it was made, told of by this name if it is not.
    pub(crate) fn unwritten(&self, what: &str, inner: &[u8]) -> Result<(), Fault> {
        let around = [self.around; GUARD];
        if self.inner() == inner && self.bytes.starts_with(&around) && self.bytes.ends_with(&around)
        {
            return Ok(());
        }
        Err(format!("written: {what}, or what stands around that"))
    }
}
