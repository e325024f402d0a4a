//! What a processor asks for: fetch and store, the six storage-key instructions, SET PREFIX and
//! STORE PREFIX.

/// The two ways to access storage.
#[derive(Clone, Copy, Debug, PartialEq, Eq, Hash)]
pub enum AccessKind {
    /// Bytes go from storage to the buffer.
    Fetch,
    /// Bytes go from the buffer to storage.
    Store,
}

/// One of the six storage-key instructions with its operands.
#[derive(Clone, Copy, Debug, PartialEq, Eq, Hash)]
pub enum KeyInstruction {
    /// INSERT STORAGE KEY. The answer's word is the new content of R1.
    Isk {
        /// The content of general register R1.
        r1: u32,
        /// The content of general register R2; bits 8-20 designate a 2K block.
        r2: u32,
    },
    /// SET STORAGE KEY.
    Ssk {
        /// The content of general register R1; bits 24-30 are the new key.
        r1: u32,
        /// The content of general register R2; bits 8-20 designate a 2K block.
        r2: u32,
    },
    /// RESET REFERENCE BIT. The condition code becomes 2 x the old reference bit + the
    /// old change bit.
    Rrb {
        /// The real address; bits 21-31 are ignored.
        address: u32,
    },
    /// INSERT STORAGE KEY EXTENDED. The answer's word is the new content of R1.
    Iske {
        /// The content of general register R1.
        r1: u32,
        /// The content of general register R2; bits 1-19 designate a 4K block.
        r2: u32,
    },
    /// SET STORAGE KEY EXTENDED.
    Sske {
        /// The content of general register R1; bits 24-30 are the new key.
        r1: u32,
        /// The content of general register R2; bits 1-19 designate a 4K block.
        r2: u32,
    },
    /// RESET REFERENCE BIT EXTENDED. The condition code as for RRB; of two keys, with 2K
    /// units, it takes the OR of the two reference bits and the OR of the two change bits.
    Rrbe {
        /// The content of general register R2; bits 1-19 designate a 4K block.
        r2: u32,
    },
}

/// One of the two prefix instructions.
#[derive(Clone, Copy, Debug, PartialEq, Eq, Hash)]
pub enum PrefixInstruction {
    /// SET PREFIX.
    SetPrefix {
        /// The operand; bits 8-19 are the new prefix, the others are ignored.
        word: u32,
    },
    /// STORE PREFIX. The answer's word is the prefix.
    StorePrefix,
}

/// A request to the storage unit. It has a constructor for each operation.
///
/// ```
/// use storage_unit::{KeyInstruction, Request};
///
/// let request = Request::ssk(0x80, 8192);
/// assert_eq!(request, Request::Key(KeyInstruction::Ssk { r1: 0x80, r2: 8192 }));
/// ```
#[derive(Clone, Copy, Debug, PartialEq, Eq, Hash)]
pub enum Request {
    /// A fetch or a store.
    Access {
        /// Fetch or store.
        kind: AccessKind,
        /// The real address of the first byte, below 16,777,216.
        address: u32,
        /// The number of bytes, 1 to 256.
        count: u32,
    },
    /// A storage-key instruction.
    Key(KeyInstruction),
    /// A prefix instruction.
    Prefix(PrefixInstruction),
}

impl Request {
    /// A fetch of `count` bytes from real address `address` on.
    #[inline]
    #[must_use]
    pub const fn fetch(address: u32, count: u32) -> Self {
        Request::Access {
            kind: AccessKind::Fetch,
            address,
            count,
        }
    }

    /// A store of `count` bytes from real address `address` on.
    #[inline]
    #[must_use]
    pub const fn store(address: u32, count: u32) -> Self {
        Request::Access {
            kind: AccessKind::Store,
            address,
            count,
        }
    }

    /// INSERT STORAGE KEY of the 2K block that R2 designates.
    #[inline]
    #[must_use]
    pub const fn isk(r1: u32, r2: u32) -> Self {
        Request::Key(KeyInstruction::Isk { r1, r2 })
    }

    /// SET STORAGE KEY of the 2K block that R2 designates.
    #[inline]
    #[must_use]
    pub const fn ssk(r1: u32, r2: u32) -> Self {
        Request::Key(KeyInstruction::Ssk { r1, r2 })
    }

    /// RESET REFERENCE BIT of the 2K block in which the real address lies.
    #[inline]
    #[must_use]
    pub const fn rrb(address: u32) -> Self {
        Request::Key(KeyInstruction::Rrb { address })
    }

    /// INSERT STORAGE KEY EXTENDED of the 4K block that R2 designates.
    #[inline]
    #[must_use]
    pub const fn iske(r1: u32, r2: u32) -> Self {
        Request::Key(KeyInstruction::Iske { r1, r2 })
    }

    /// SET STORAGE KEY EXTENDED of the 4K block that R2 designates.
    #[inline]
    #[must_use]
    pub const fn sske(r1: u32, r2: u32) -> Self {
        Request::Key(KeyInstruction::Sske { r1, r2 })
    }

    /// RESET REFERENCE BIT EXTENDED of the 4K block that R2 designates.
    #[inline]
    #[must_use]
    pub const fn rrbe(r2: u32) -> Self {
        Request::Key(KeyInstruction::Rrbe { r2 })
    }

    /// SET PREFIX to bits 8-19 of the word.
    #[inline]
    #[must_use]
    pub const fn set_prefix(word: u32) -> Self {
        Request::Prefix(PrefixInstruction::SetPrefix { word })
    }

    /// STORE PREFIX.
    #[inline]
    #[must_use]
    pub const fn store_prefix() -> Self {
        Request::Prefix(PrefixInstruction::StorePrefix)
    }
}
