//! Trust bundles, as the library reads and joins them.

use crate::error::Error;
use crate::ffi::{self, Document, Handle, Told};

/// Trust bundles that were read, apart from any validator.
#[derive(Debug)]
pub(crate) struct Bundles {
    pub raw: Handle,
}

impl Bundles {
    /// Reads trust bundles: an object from trust domain names to JWK sets (docs/FORMATS.md, "Bundles").
    pub fn read(json: &[u8]) -> Result<Bundles, Error> {
        let (mut raw, mut told) = (Handle::CLOSED, Told::default());
        // SAFETY: the handle is closed, the input is a slice with its length, and nothing overlaps.
        let status = unsafe { ffi::svid_bundles_open(&mut raw, json.as_ptr(), json.len(), &mut told) };
        match status {
            ffi::OK => Ok(Bundles { raw }),
            status => Err(Error::of(status, &told)),
        }
    }
}

/// What the text of a bundle is.
#[derive(Debug, Clone, Copy, PartialEq, Eq)]
pub(crate) enum Form {
    /// As SPIRE prints it.
    Bundle = 0,
    /// Keys for JWT-SVIDs alone, which need no `use` (SPIFFE Workload API, section 6.2.2).
    #[cfg(feature = "workload")]
    Keys = 1,
}

impl Drop for Bundles {
    fn drop(&mut self) {
        // SAFETY: the handle is open, and this is its last call.
        unsafe { ffi::svid_bundles_close(&mut self.raw) }
    }
}

/// The text of several bundles, each with the name of its trust domain, and of objects from names to bundles, which have none.
pub(crate) fn join<'a>(given: impl IntoIterator<Item = (Option<&'a str>, &'a [u8], Form)>) -> Result<Vec<u8>, Error> {
    let (mut bytes, mut documents) = (Vec::new(), Vec::new());
    for (name, text, form) in given {
        // (to the library, a document with an empty name has none)
        let name = match name {
            Some("") => b"spiffe://",
            Some(name) => name.as_bytes(),
            None => b"",
        };
        documents.try_reserve(1).map_err(|_| Error::NoMemory)?;
        documents.push(Document { name_len: name.len(), text_len: text.len(), keys: form as u64 });
        add(&mut bytes, name)?;
        add(&mut bytes, text)?;
    }
    if let [Document { name_len: 0, .. }] = documents.as_slice() {
        return Ok(bytes); // (whoever reads it says what is wrong with it)
    }
    let (mut joined, mut told) = (Vec::new(), Told::default());
    ffi::grow(&mut joined, bytes.len().saturating_mul(2).saturating_add(64)).map_err(|_| Error::NoMemory)?;
    let written = ffi::written(&mut joined, &mut told, |out, out_len, told| {
        // SAFETY: `out` is the room with its length, and the inputs are other slices with theirs.
        unsafe { ffi::svid_bundles_join(bytes.as_ptr(), bytes.len(), documents.as_ptr(), documents.len(), out, out_len, told) }
    });
    let len = written.map_err(|status| Error::of_documents(status, &told))?;
    joined.truncate(len);
    Ok(joined)
}

fn add(text: &mut Vec<u8>, more: &[u8]) -> Result<(), Error> {
    text.try_reserve(more.len()).map_err(|_| Error::NoMemory)?;
    text.extend_from_slice(more);
    Ok(())
}
