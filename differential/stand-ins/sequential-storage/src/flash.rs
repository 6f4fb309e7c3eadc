//! The driver of the tests: a region of bytes with document 01's fault script,
//! the position in it, the cut, and the number of item calls.

use embedded_storage_async::nor_flash::{MultiwriteNorFlash, NorFlashErrorKind, Spent};

/// Low seven bits of the script byte that cuts the power.
const CUT: u8 = 127;

#[derive(Clone, Debug, Default, PartialEq, Eq)]
pub struct ScriptedFlash {
    pub region: Vec<u8>,
    pub script: Vec<u8>,
    /// Position in the script. One beyond its end is kept as it was given.
    pub at: u64,
    pub cut: bool,
    pub calls: u64,
}

impl MultiwriteNorFlash for ScriptedFlash {
    type Error = NorFlashErrorKind;
    const ERASE_SIZE: u32 = 4096;

    fn region(&self) -> &[u8] {
        &self.region
    }

    fn region_mut(&mut self) -> &mut [u8] {
        &mut self.region
    }

    fn spend(&mut self) -> Spent {
        // Failed calls count too, so this comes before everything else.
        self.calls += 1;
        if self.cut {
            return Spent::Dead;
        }
        let here = usize::try_from(self.at).ok();
        let Some(&code) = here.and_then(|at| self.script.get(at)) else {
            return Spent::Code(0);
        };
        self.at += 1;
        self.cut = code & 0x7f == CUT;
        Spent::Code(code)
    }

    fn error(kind: NorFlashErrorKind) -> NorFlashErrorKind {
        kind
    }
}
