//! The implementations, and the ways in to them, each as a [`Unit`], and their channels each as a
//! [`ChannelUnit`].

use storage_unit::boundary::{self, RawChannel, RawFetch, RawStore};
use storage_unit::{
    AccessKind, Answer, KeyInstruction, Machine, PrefixInstruction, Processor, Request, Settings,
};

use crate::{ChannelUnit, RequestFunction, Unit, plain, plain_channel, reference};

/// The reference.
pub struct Reference;

impl Unit for Reference {
    const NAME: &'static str = "reference";
    const REQUEST: RequestFunction = reference::request;
}

/// The plain implementation.
pub struct Plain;

impl Unit for Plain {
    const NAME: &'static str = "plain";
    const REQUEST: RequestFunction =
        |settings, storage, keys, processors, number, asked, buffer| {
            plain::request(settings, storage, keys, processors, number, asked, buffer).into()
        };
}

/// The plain implementation by its C function for every request.
pub struct PlainBehindBoundary;

impl Unit for PlainBehindBoundary {
    const NAME: &'static str = "plain behind the C boundary";
    const REQUEST: RequestFunction =
        |settings, storage, keys, processors, number, asked, buffer| {
            // SAFETY: the function keeps to the bytes it is given.
            unsafe {
                boundary::call(
                    plain::storage_unit_request_plain,
                    settings,
                    storage,
                    keys,
                    processors,
                    number,
                    asked,
                    buffer,
                )
            }
        };
}

/// The plain implementation, accesses by its C functions for fetch and store.
pub struct PlainShortWay;

impl Unit for PlainShortWay {
    const NAME: &'static str = "plain by the short way in";
    const REQUEST: RequestFunction =
        |settings, storage, keys, processors, number, asked, buffer| {
            let own = processors.get(number as usize).copied();
            by_access(PLAIN, settings, storage, keys, own, asked, buffer).unwrap_or_else(|| {
                (Plain::REQUEST)(settings, storage, keys, processors, number, asked, buffer)
            })
        };
}

/// The proved unit.
pub struct Proved;

impl Unit for Proved {
    const NAME: &'static str = "proved";
    const REQUEST: RequestFunction = storage_unit::request;
}

/// The proved unit, accesses by its C functions for fetch and store.
pub struct ProvedShortWay;

impl Unit for ProvedShortWay {
    const NAME: &'static str = "proved by the short way in";
    const REQUEST: RequestFunction =
        |settings, storage, keys, processors, number, asked, buffer| {
            let own = processors.get(number as usize).copied();
            by_access(PROVED, settings, storage, keys, own, asked, buffer).unwrap_or_else(|| {
                (Proved::REQUEST)(settings, storage, keys, processors, number, asked, buffer)
            })
        };
}

/// The proved unit, by the methods of a processor of a [`Machine`].
pub struct ProvedMachine;

impl Unit for ProvedMachine {
    const NAME: &'static str = "proved by the methods of a machine";
    const REQUEST: RequestFunction =
        |settings, storage, keys, processors, number, asked, buffer| {
            let mut machine = Machine::borrowed(settings, storage, keys, processors);
            by_method(&mut machine, number, asked, buffer)
        };
}

impl ChannelUnit for Plain {
    const NAME: &'static str = "plain";
    const WHOLE: RawChannel = plain_channel::storage_unit_channel_plain;
    const STEP: RawChannel = plain_channel::storage_unit_channel_step_plain;
}

impl ChannelUnit for Proved {
    const NAME: &'static str = "proved";
    const WHOLE: RawChannel = boundary::storage_unit_channel;
    const STEP: RawChannel = boundary::storage_unit_channel_step;
}

/// The C functions for fetch and store of an implementation.
type AccessFunctions = (RawFetch, RawStore);

const PLAIN: AccessFunctions = (
    plain::storage_unit_fetch_plain,
    plain::storage_unit_store_plain,
);
const PROVED: AccessFunctions = (boundary::storage_unit_fetch, boundary::storage_unit_store);

/// A fetch or store by its own C function, or `None` where there is no record, the request is
/// another, or its buffer is too short.
fn by_access(
    (fetch, store): AccessFunctions,
    settings: Settings,
    storage: &mut [u8],
    keys: &mut [u8],
    own: Option<Processor>,
    asked: &Request,
    buffer: &mut [u8],
) -> Option<Answer> {
    let (kind, address, bytes) = access(asked, buffer)?;
    let own = own?;
    // SAFETY: the functions are those of this crate and of the static library.
    Some(unsafe {
        match kind {
            AccessKind::Fetch => {
                boundary::call_fetch(fetch, settings, storage, keys, &own, address, bytes)
            }
            AccessKind::Store => {
                boundary::call_store(store, settings, storage, keys, &own, address, bytes)
            }
        }
    })
}

/// Kind, address and bytes of a fetch or store, or `None` where the request is another or its
/// buffer is too short.
fn access<'a>(asked: &Request, buffer: &'a mut [u8]) -> Option<(AccessKind, u32, &'a mut [u8])> {
    let Request::Access {
        kind,
        address,
        count,
    } = *asked
    else {
        return None;
    };
    Some((kind, address, buffer.get_mut(..count as usize)?))
}

/// A request by the method of its operation. An access whose buffer is too short has none, and
/// goes by the method for any request.
pub fn by_method<B, P>(
    machine: &mut Machine<B, P>,
    number: u32,
    asked: &Request,
    buffer: &mut [u8],
) -> Answer
where
    B: AsMut<[u8]>,
    P: std::borrow::BorrowMut<[Processor; 2]>,
{
    let mut cpu = machine.cpu(number);
    match *asked {
        Request::Access { .. } => match access(asked, buffer) {
            Some((AccessKind::Fetch, address, bytes)) => cpu.fetch(address, bytes),
            Some((AccessKind::Store, address, bytes)) => cpu.store(address, bytes),
            None => cpu.request(asked, buffer),
        },
        Request::Key(instruction) => match instruction {
            KeyInstruction::Isk { r1, r2 } => cpu.isk(r1, r2),
            KeyInstruction::Ssk { r1, r2 } => cpu.ssk(r1, r2),
            KeyInstruction::Rrb { address } => cpu.rrb(address),
            KeyInstruction::Iske { r1, r2 } => cpu.iske(r1, r2),
            KeyInstruction::Sske { r1, r2 } => cpu.sske(r1, r2),
            KeyInstruction::Rrbe { r2 } => cpu.rrbe(r2),
        },
        Request::Prefix(PrefixInstruction::SetPrefix { word }) => cpu.set_prefix(word),
        Request::Prefix(PrefixInstruction::StorePrefix) => cpu.store_prefix(),
    }
}
