//! One `svid_validator` of the C library.

mod member;

use std::fmt;

pub(crate) use self::member::{Step, Waiting};
use crate::bundles::Bundles;
use crate::error::Error;
use crate::ffi::{self, Handle, Known, Told};
use crate::options::{Audiences, Options};
use crate::record::{Size, TokenKey, Use, ValidatorId};

/// How much room a validator begins with: enough for the candidates of most bundles, and for any SPIFFE ID.
const ROOM: usize = 8192;

/// An open validator. All calls are those of `svid.h` of the same names.
pub(crate) struct Core {
    pub raw: Handle,
    room: Vec<u8>,
    spare: Vec<u8>, // for the ID of a token that was accepted, if there is no other memory for it
    validator_id: ValidatorId,
    edition: u64,       // how often the bundles were replaced
    known: Known,       // what its member knows
    named: Vec<String>, // trust domains whose bundles are to come, or are there
    waiting: Waiting,
}

impl Core {
    /// Opens a validator with an empty record, and without trust bundles.
    pub fn open(options: &Options) -> Result<Core, Error> {
        crate::same_version()?;
        let (own, validator_id) = (Audiences::of(options)?, options.own_id()?);
        let (raw, waiting, mut told) = (Handle::CLOSED, Waiting::default(), Told::default());
        let (room, spare, known, named) = (Vec::new(), Vec::new(), Known::default(), Vec::new());
        let mut core = Core { raw, room, spare, validator_id, edition: 0, known, named, waiting };
        ffi::grow(&mut core.room, ROOM).map_err(|_| Error::NoMemory)?;
        let (terms, bundles) = (Audiences::terms(options, validator_id), b"{}");
        // SAFETY: the handle is closed, each input is a slice with its length, and nothing overlaps.
        let status = unsafe {
            ffi::svid_validator_open_by_lengths(
                &mut core.raw,
                &terms,
                own.text.as_ptr(),
                own.text.len(),
                own.lens.as_ptr(),
                own.lens.len(),
                bundles.as_ptr(),
                bundles.len(),
                &mut told,
            )
        };
        done(status, &told).map(|()| core)
    }

    pub fn validator_id(&self) -> ValidatorId {
        self.validator_id
    }

    /// Exchanges the bundles. `is_some`: there is one at the least. `named`: the trust domains whose bundles the sources name. The member is to be told.
    pub fn renew(&mut self, bundles: &mut Bundles, is_some: bool, named: &mut Vec<String>) -> Result<(), Error> {
        let mut told = Told::default();
        // SAFETY: both handles are open, and each is given to this call alone.
        let status = unsafe { ffi::svid_validator_renew_by(&mut self.raw, &mut bundles.raw, &mut told) };
        done(status, &told)?;
        self.edition += 1;
        self.known.bundled = is_some.into();
        std::mem::swap(&mut self.named, named);
        Ok(())
    }

    pub fn withdraw(&mut self, now: u64, key: TokenKey, expires: u64) -> Result<Use, Error> {
        let mut told = Told::default();
        let (key, mut used) = (ffi::Key { bytes: key.0 }, ffi::Use::default());
        // SAFETY: the handle is open, and nothing overlaps.
        let status = unsafe { ffi::svid_validator_withdraw(&mut self.raw, now, &key, expires, &mut used, &mut told) };
        done(status, &told).map(|()| Use::of(&used, true))
    }

    pub fn tick(&mut self, now: u64) -> Result<(), Error> {
        let mut told = Told::default();
        // SAFETY: the handle is open.
        let status = unsafe { ffi::svid_validator_tick(&mut self.raw, now, &mut told) };
        done(status, &told)
    }

    pub fn take(&mut self, now: u64, messages: &[u8]) -> Result<(), Error> {
        let mut told = Told::default();
        // SAFETY: the handle is open, and the messages are a slice with its length.
        let status = unsafe { ffi::svid_validator_take(&mut self.raw, now, messages.as_ptr(), messages.len(), &mut told) };
        done(status, &told)
    }

    pub fn tell(&mut self) -> Result<Vec<u8>, Error> {
        let mut text = Vec::new();
        let (raw, mut told) = (&mut self.raw, Told::default());
        let written = ffi::written(&mut text, &mut told, |out, out_len, told| {
            // SAFETY: the handle is open, and `out` is the text's room with its length.
            unsafe { ffi::svid_validator_tell(raw, out, out_len, told) }
        });
        cut(text, written, &told)
    }

    /// Writes the next piece of the record into `out`, and gives its length.
    pub fn piece(&mut self, part: &mut ffi::Part, out: &mut [u8]) -> Result<usize, Error> {
        let mut told = Told::default();
        // SAFETY: the handle is open, `out` is a slice with its length, and nothing overlaps.
        let status = unsafe { ffi::svid_validator_parts(&mut self.raw, part, out.as_mut_ptr(), out.len(), &mut told) };
        done(status, &told).map(|()| told.len)
    }

    pub fn size(&mut self) -> Result<Size, Error> {
        let mut told = Told::default();
        let mut size = ffi::Size::default();
        // SAFETY: the handle is open, and nothing overlaps.
        let status = unsafe { ffi::svid_validator_size(&mut self.raw, &mut size, &mut told) };
        done(status, &told).map(|()| Size { moment: size.moment, uses: size.uses })
    }

    pub fn summary(&mut self) -> Result<Vec<u8>, Error> {
        let mut text = Vec::new();
        let (raw, mut told) = (&mut self.raw, Told::default());
        let written = ffi::grow(&mut text, ffi::SUMMARY_LEN).and_then(|()| {
            ffi::written(&mut text, &mut told, |out, out_len, told| {
                // SAFETY: the handle is open, and `out` is the text's room with its length.
                unsafe { ffi::svid_validator_summary(raw, out, out_len, told) }
            })
        });
        cut(text, written, &told)
    }

    /// The uses whose keys begin with this byte, as messages.
    pub fn bucket(&mut self, number: u8) -> Result<Vec<u8>, Error> {
        let mut text = Vec::new();
        let (raw, mut told) = (&mut self.raw, Told::default());
        let written = ffi::written(&mut text, &mut told, |out, out_len, told| {
            // SAFETY: the handle is open, and `out` is the text's room with its length.
            unsafe { ffi::svid_validator_bucket(raw, number, 0, out, out_len, told) }
        });
        cut(text, written, &told)
    }

    pub fn answer(&mut self, now: u64, summary: &[u8]) -> Result<Vec<u8>, Error> {
        let mut text = Vec::new();
        let (raw, mut told) = (&mut self.raw, Told::default());
        let written = ffi::written(&mut text, &mut told, |out, out_len, told| {
            // SAFETY: the handle is open, `out` is the text's room with its length, and the summary is another slice with its length.
            unsafe { ffi::svid_validator_answer(raw, now, summary.as_ptr(), summary.len(), out, out_len, told) }
        });
        cut(text, written, &told)
    }
}

impl fmt::Debug for Core {
    fn fmt(&self, f: &mut fmt::Formatter<'_>) -> fmt::Result {
        f.debug_struct("Core").field("validator_id", &self.validator_id).finish_non_exhaustive()
    }
}

impl Drop for Core {
    fn drop(&mut self) {
        // SAFETY: this is the last call with the handle. (It does nothing to one that was not opened.)
        unsafe { ffi::svid_validator_close(&mut self.raw) }
    }
}

pub(crate) fn done(status: u32, told: &Told) -> Result<(), Error> {
    match status {
        ffi::OK => Ok(()),
        status => Err(Error::of(status, told)),
    }
}

/// A text that was written into a room of its own.
pub(crate) fn cut(mut text: Vec<u8>, written: Result<usize, u32>, told: &Told) -> Result<Vec<u8>, Error> {
    text.truncate(written.map_err(|status| Error::of(status, told))?);
    Ok(text)
}
