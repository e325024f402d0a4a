//! Requests of a processor over storage, keys and records that the caller lends for the call.

use crate::{Completed, Processor, Refusal, Request, Settings, boundary};

/// Carries out one request for one processor.
///
/// `storage` is a multiple of 4,096 bytes, from 4,096 to 16,777,216, and `keys`
/// has [`Settings::key_count`] bytes, one for each key unit by absolute address.
/// `processors` holds the records of processors 0 and 1, and `processor_number` is
/// the number of the one that asks. A fetch writes the first bytes of `buffer`, as
/// many as its count, and keeps the rest; a store reads the first bytes and ignores
/// the rest; the other requests do not use `buffer`, which can be empty.
///
/// # Errors
///
/// The first [`Reason`](crate::Reason) that applies, with its place; nothing lent and neither
/// record has changed. Values outside the limits above are allowed and are refused too.
///
/// ```
/// use storage_unit::{Processor, Reason, Refusal, Request, Settings, request};
///
/// let settings = Settings { four_k: false, extensions: true };
/// let mut storage = vec![0; 4096];
/// let mut keys = vec![0; 2];
/// let mut processors = [Processor::default(); 2];
/// let mut buffer = [7; 8];
/// let answer = request(
///     settings,
///     &mut storage,
///     &mut keys,
///     &mut processors,
///     0,
///     &Request::fetch(4094, 4),
///     &mut buffer,
/// );
/// // The third byte is the first one outside storage.
/// assert_eq!(answer, Err(Refusal { reason: Reason::Addressing, place: 2 }));
/// assert_eq!(buffer, [7; 8]);
/// ```
#[inline]
pub fn request(
    settings: Settings,
    storage: &mut [u8],
    keys: &mut [u8],
    processors: &mut [Processor; 2],
    processor_number: u32,
    request: &Request,
    buffer: &mut [u8],
) -> Result<Completed, Refusal> {
    // SAFETY: the static library has the function with this meaning.
    unsafe {
        boundary::call(
            boundary::storage_unit_request,
            settings,
            storage,
            keys,
            processors,
            processor_number,
            request,
            buffer,
        )
    }
}

/// Fetches as many bytes as `bytes` has from real address `address` on, for the processor with
/// the record `own`: what [`request`] does with [`Request::fetch`], in less time.
///
/// # Errors
///
/// As for [`request`].
///
/// ```
/// use storage_unit::{Processor, Refusal, Settings, fetch};
///
/// let settings = Settings { four_k: false, extensions: true };
/// let storage = vec![0x5A; 4096];
/// let mut keys = vec![0; 2];
/// let mut bytes = [0; 4];
/// fetch(settings, &storage, &mut keys, &Processor::default(), 2046, &mut bytes)?;
/// assert_eq!(bytes, [0x5A; 4]);
/// assert_eq!(keys, [0x04; 2]);
/// # Ok::<(), Refusal>(())
/// ```
#[inline]
pub fn fetch(
    settings: Settings,
    storage: &[u8],
    keys: &mut [u8],
    own: &Processor,
    address: u32,
    bytes: &mut [u8],
) -> Result<Completed, Refusal> {
    // SAFETY: the static library has the function with this meaning.
    unsafe {
        boundary::call_fetch(
            boundary::storage_unit_fetch,
            settings,
            storage,
            keys,
            own,
            address,
            bytes,
        )
    }
}

/// Stores the bytes of `bytes` from real address `address` on, for the processor with the
/// record `own`: what [`request`] does with [`Request::store`], in less time.
///
/// # Errors
///
/// As for [`request`].
///
/// ```
/// use storage_unit::{Processor, Refusal, Settings, store};
///
/// let settings = Settings { four_k: false, extensions: true };
/// let mut storage = vec![0; 4096];
/// let mut keys = vec![0; 2];
/// store(settings, &mut storage, &mut keys, &Processor::default(), 2046, b"ABCD")?;
/// assert_eq!(&storage[2046..2050], b"ABCD");
/// assert_eq!(keys, [0x06; 2]);
/// # Ok::<(), Refusal>(())
/// ```
#[inline]
pub fn store(
    settings: Settings,
    storage: &mut [u8],
    keys: &mut [u8],
    own: &Processor,
    address: u32,
    bytes: &[u8],
) -> Result<Completed, Refusal> {
    // SAFETY: the static library has the function with this meaning.
    unsafe {
        boundary::call_store(
            boundary::storage_unit_store,
            settings,
            storage,
            keys,
            own,
            address,
            bytes,
        )
    }
}
