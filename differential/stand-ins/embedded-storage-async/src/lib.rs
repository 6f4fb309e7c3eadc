//! Stand-in for the flash driver traits. Document 01 puts its fault script on
//! item calls, so a driver here lends a region of bytes and spends script bytes.

pub mod nor_flash {
    use core::fmt::Debug;

    #[derive(Clone, Copy, Debug, PartialEq, Eq)]
    #[non_exhaustive]
    pub enum NorFlashErrorKind {
        NotAligned,
        OutOfBounds,
        Other,
    }

    pub trait NorFlashError: Debug {
        fn kind(&self) -> NorFlashErrorKind;
    }

    impl NorFlashError for NorFlashErrorKind {
        fn kind(&self) -> NorFlashErrorKind {
            *self
        }
    }

    /// What the script says about one item call.
    #[derive(Clone, Copy, Debug, PartialEq, Eq)]
    pub enum Spent {
        /// An earlier call met a cut: this one reaches nothing.
        Dead,
        /// The script's byte for this call; 0 at or past the script's end.
        Code(u8),
    }

    /// The only bound the flash source puts on its driver, so all that the
    /// engine stand-in needs from a driver has to hang on this name.
    pub trait MultiwriteNorFlash {
        type Error: NorFlashError;
        const ERASE_SIZE: u32;

        /// The region's bytes; their number is document 01's L.
        fn region(&self) -> &[u8];
        fn region_mut(&mut self) -> &mut [u8];
        /// Count one item call and spend its script byte.
        fn spend(&mut self) -> Spent;
        /// The driver's own error of this kind.
        fn error(kind: NorFlashErrorKind) -> Self::Error;
    }
}
