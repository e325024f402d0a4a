//! What a request gives: completed with a word and a rule, or refused for a reason at a place.

use std::error::Error;
use std::fmt;

/// The answer to a request. It has eight bytes and comes back in a register.
pub type Answer = Result<Completed, Refusal>;

/// What a completed request gives.
#[derive(Clone, Copy, Debug, PartialEq, Eq, Hash)]
pub struct Completed {
    /// The result of ISK, ISKE or STORE PREFIX; otherwise zero.
    pub word: u32,
    /// For a fetch, store or key instruction, the rule that gave the absolute address of the
    /// first address it names: of the first byte of an access, or of the block of a key
    /// instruction. `None` for SET PREFIX and STORE PREFIX.
    pub rule: Option<Rule>,
}

/// Why a request was refused, and where. Nothing lent and neither record has changed.
///
/// ```
/// use storage_unit::{Machine, Reason, Refusal, Settings};
///
/// let mut machine = Machine::new(Settings::default(), 65_536)?;
/// let refusal = machine.cpu(0).store(65_535, b"AB").unwrap_err();
/// assert_eq!(refusal, Refusal { reason: Reason::Addressing, place: 1 });
/// assert_eq!(refusal.to_string(), "addressing exception (number 5), place 1");
/// # Ok::<(), Refusal>(())
/// ```
#[derive(Clone, Copy, Debug, PartialEq, Eq, Hash)]
pub struct Refusal {
    /// The reason: the first that applies.
    pub reason: Reason,
    /// For [`Reason::Addressing`] and [`Reason::Protection`] of an access, the offset of the
    /// first such byte from the start of the access; otherwise zero, but for an answer of a
    /// library of another version ([`Reason::Configuration`]).
    pub place: u8,
}

impl Refusal {
    /// What stands for an answer that this crate does not know, of a library of another version.
    pub(crate) const UNKNOWN: Refusal = Refusal {
        reason: Reason::Configuration,
        place: u8::MAX,
    };
}

impl fmt::Display for Refusal {
    fn fmt(&self, f: &mut fmt::Formatter) -> fmt::Result {
        if *self == Refusal::UNKNOWN {
            return f.write_str("the library that is linked is not of this crate's version");
        }
        write!(f, "{} (number {})", self.reason, self.reason.number())?;
        match self.reason {
            Reason::Addressing | Reason::Protection => write!(f, ", place {}", self.place),
            _ => Ok(()),
        }
    }
}

impl Error for Refusal {}

/// Why a request was refused.
///
/// Each reason has a number. Those below 64 are program exceptions, with the manual's
/// interruption codes and names. The others say that what the host lends or asks for is wrong.
#[derive(Clone, Copy, Debug, PartialEq, Eq, PartialOrd, Ord, Hash)]
// One byte, so that an `Answer` has eight.
#[repr(u8)]
pub enum Reason {
    /// 1: operation exception. ISKE, SSKE or RRBE without the extensions.
    Operation = 1,
    /// 2: privileged-operation exception. A key or prefix instruction in the problem state.
    Privileged = 2,
    /// 4: protection exception. A byte of the access is forbidden.
    Protection = 4,
    /// 5: addressing exception. A real address, or the block that SET PREFIX would install,
    /// is outside storage.
    Addressing = 5,
    /// 6: specification exception. ISK or SSK with any of bits 28-31 of R2 on.
    Specification = 6,
    /// 19, hex 13: special-operation exception. ISK, SSK or RRB with the 4K facility and
    /// bit 7 of control register 0 zero.
    SpecialOperation = 19,
    /// 64: the length of the storage or of the key array is wrong.
    ///
    /// With place 255, which the unit never gives for this reason: the library that is linked
    /// is not of this crate's [`VERSION`](crate::VERSION), and answered what this crate does
    /// not know.
    Configuration = 64,
    /// 65: there is no such processor, or its record holds a value that no processor has.
    Record = 65,
    /// 66: the count of an access is 0, more than 256 or more than the buffer has, or the
    /// address of an access or of RRB is 16,777,216 or more.
    Operand = 66,
}

impl Reason {
    /// Every reason, in the order in which they are tested.
    pub const ALL: [Reason; 9] = [
        Reason::Configuration,
        Reason::Record,
        Reason::Operand,
        Reason::Operation,
        Reason::Privileged,
        Reason::SpecialOperation,
        Reason::Specification,
        Reason::Addressing,
        Reason::Protection,
    ];

    /// The number of the reason. [`Reason::try_from`] goes back.
    ///
    /// ```
    /// use storage_unit::Reason;
    /// assert_eq!(Reason::SpecialOperation.number(), 0x13);
    /// assert_eq!(Reason::try_from(0x13), Ok(Reason::SpecialOperation));
    /// ```
    #[inline]
    #[must_use]
    pub const fn number(self) -> u16 {
        self as u16
    }

    /// The program interruption code, or `None` if what the host lends or asks for is wrong.
    ///
    /// ```
    /// use storage_unit::Reason;
    /// assert_eq!(Reason::Protection.interruption_code(), Some(4));
    /// assert_eq!(Reason::Record.interruption_code(), None);
    /// ```
    #[inline]
    #[must_use]
    pub const fn interruption_code(self) -> Option<u16> {
        match self {
            Reason::Configuration | Reason::Record | Reason::Operand => None,
            _ => Some(self.number()),
        }
    }

    /// The reason with this number, or `None` if no reason has it.
    #[inline]
    pub(crate) const fn from_number(number: u16) -> Option<Reason> {
        Some(match number {
            1 => Reason::Operation,
            2 => Reason::Privileged,
            4 => Reason::Protection,
            5 => Reason::Addressing,
            6 => Reason::Specification,
            19 => Reason::SpecialOperation,
            64 => Reason::Configuration,
            65 => Reason::Record,
            66 => Reason::Operand,
            _ => return None,
        })
    }
}

impl fmt::Display for Reason {
    fn fmt(&self, f: &mut fmt::Formatter) -> fmt::Result {
        f.pad(match self {
            Reason::Operation => "operation exception",
            Reason::Privileged => "privileged-operation exception",
            Reason::Protection => "protection exception",
            Reason::Addressing => "addressing exception",
            Reason::Specification => "specification exception",
            Reason::SpecialOperation => "special-operation exception",
            Reason::Configuration => {
                "configuration: wrong settings, or a wrong length of storage or keys"
            }
            Reason::Record => {
                "record: no such processor, a wrong record, or records of a wrong length"
            }
            Reason::Operand => "operand: no such operation, or a wrong count, address or buffer",
        })
    }
}

impl Error for Reason {}

impl From<Reason> for u16 {
    #[inline]
    fn from(reason: Reason) -> u16 {
        reason.number()
    }
}

impl TryFrom<u16> for Reason {
    type Error = UnknownReason;

    #[inline]
    fn try_from(number: u16) -> Result<Reason, UnknownReason> {
        Reason::from_number(number).ok_or(UnknownReason(number))
    }
}

/// The number is not that of a [`Reason`].
///
/// ```
/// use storage_unit::Reason;
///
/// let unknown = Reason::try_from(3).unwrap_err();
/// assert_eq!(unknown.0, 3);
/// assert_eq!(unknown.to_string(), "3 is not the number of a refusal");
/// ```
#[derive(Clone, Copy, Debug, PartialEq, Eq, Hash)]
pub struct UnknownReason(pub u16);

impl fmt::Display for UnknownReason {
    fn fmt(&self, f: &mut fmt::Formatter) -> fmt::Result {
        write!(f, "{} is not the number of a refusal", self.0)
    }
}

impl Error for UnknownReason {}

/// The three rules by which a real address becomes an absolute address, as the manual
/// numbers them. Bits 1-19 of an address are the number of its 4K block.
#[derive(Clone, Copy, Debug, PartialEq, Eq, PartialOrd, Ord, Hash)]
#[repr(u8)]
pub enum Rule {
    /// 1: bits 1-19 are zero, and are replaced by the prefix's. With prefix zero, the rule
    /// for every address below 4,096.
    Zero = 1,
    /// 2: bits 1-19 are equal to the prefix's, and are replaced by zeros.
    Prefix = 2,
    /// 3: otherwise. The address is unchanged.
    Unchanged = 3,
}

impl Rule {
    /// The number of the rule.
    ///
    /// ```
    /// use storage_unit::Rule;
    /// assert_eq!(Rule::Unchanged.number(), 3);
    /// ```
    #[inline]
    #[must_use]
    pub const fn number(self) -> u8 {
        self as u8
    }
}
