//! Follows the sources of trust bundles.

#[cfg(test)]
mod tests;

use std::collections::{BTreeMap, HashMap};
use std::fs::File;
use std::io::Read;
use std::path::Path;
use std::sync::{Arc, Condvar, Mutex, MutexGuard, PoisonError, Weak};
use std::thread::{self, JoinHandle};
use std::time::Duration;

use crate::bundles::{self, Bundles, Form};
use crate::error::{BundlesFault, Error};
#[cfg(feature = "workload")]
use crate::id::SpiffeId;
use crate::requests::Requests;
use crate::sources::{is_domain, Source, Sources};

/// The time between two looks at files and folders.
const EVERY: Duration = Duration::from_secs(1);
/// How long a source that could not be asked waits at the most.
#[cfg(any(feature = "https", feature = "workload"))]
pub(crate) const LONGEST: Duration = Duration::from_secs(60);
/// How many bytes a bundle has at the most.
pub(crate) const MOST: usize = 1 << 20;

/// The threads that follow the sources of a guard.
#[derive(Debug)]
pub(crate) struct Follower {
    shared: Arc<Shared>,
    threads: Vec<JoinHandle<()>>,
}

/// What these threads share.
pub(crate) struct Shared {
    requests: Weak<Requests>,
    sources: Sources,
    state: Mutex<State>,
    /// One thread at a time hands bundles on, so that the newest come last.
    telling: Mutex<()>,
    /// The beginning or the end has come.
    comes: Condvar,
    #[cfg(any(feature = "https", feature = "workload"))]
    closing: tokio::sync::watch::Sender<bool>,
}

#[derive(Debug, Default)]
struct State {
    /// By trust domain, the last good bundle, and where it came from.
    held: BTreeMap<String, Held>,
    /// By source, what was last wrong with it.
    faults: HashMap<String, String>,
    /// The guard has not what is held.
    is_due: bool,
    /// The guard follows these sources: until then, threads wait.
    is_begun: bool,
    is_closing: bool,
}

#[derive(Debug, Clone)]
struct Held {
    text: Vec<u8>,
    form: Form,
    source: String,
}

impl Follower {
    /// Begins to follow sources that were checked, instead of those before. Their bundles stay until others come, if their trust domains are named
    /// here too. After an error those before are followed.
    pub fn begin(requests: &Arc<Requests>, sources: Sources, before: &mut Option<Follower>) -> Result<(), Error> {
        let mut state = State::default();
        if let Some(before) = before {
            state.held = before.shared.state().held.clone();
            state.held.retain(|domain, held| sources.all.iter().any(|it| it.gives(domain, &held.source)));
        }
        let shared = Arc::new(Shared {
            requests: Arc::downgrade(requests),
            sources,
            state: Mutex::new(state),
            telling: Mutex::new(()),
            comes: Condvar::new(),
            #[cfg(any(feature = "https", feature = "workload"))]
            closing: tokio::sync::watch::channel(false).0,
        });
        let has_files = shared.look();
        let some = before.is_some() || shared.sources.fixed().next().is_some() || !shared.state().held.is_empty();
        let (joined, has_bundles) = shared.joined()?;
        let read = if some { Some(Bundles::read(&joined)?) } else { None };
        let mut made = Follower { shared, threads: Vec::new() };
        if has_files {
            made.spawn(|shared| shared.watch())?;
        }
        for number in 0..made.shared.sources.all.len() {
            match made.shared.sources.all[number] {
                #[cfg(feature = "https")]
                Source::Endpoint(_) => made.spawn(move |shared| shared.ask(number))?,
                #[cfg(feature = "workload")]
                Source::Workload(_) => made.spawn(move |shared| shared.ask(number))?,
                _ => {}
            }
        }
        {
            // (those before hand nothing on from here on)
            let _telling = before.as_ref().map(|it| it.shared.telling());
            if let Some(read) = read {
                requests.exchange(read, has_bundles, made.shared.named())?;
            }
            if let Some(before) = before.as_ref() {
                before.shared.state().is_closing = true;
            }
        }
        {
            let mut state = made.shared.state();
            (state.is_begun, state.is_due) = (true, false);
        }
        made.shared.comes.notify_all();
        *before = Some(made);
        Ok(())
    }

    fn spawn(&mut self, work: impl FnOnce(&Shared) + Send + 'static) -> Result<(), Error> {
        let shared = Arc::clone(&self.shared);
        let works = move || {
            if shared.begins() {
                work(&shared);
            }
        };
        let made = thread::Builder::new().name("svid-bundles".to_owned()).spawn(works);
        self.threads.push(made.map_err(|_| Error::NoMemory)?);
        Ok(())
    }
}

impl Drop for Follower {
    fn drop(&mut self) {
        self.shared.state().is_closing = true;
        self.shared.comes.notify_all();
        #[cfg(any(feature = "https", feature = "workload"))]
        self.shared.closing.send_replace(true);
        crate::waits_for_all("a thread that follows trust bundles", self.threads.drain(..));
    }
}

impl Shared {
    /// Reads the files and folders again and again, until the end.
    fn watch(&self) {
        while !self.ends_within(EVERY) {
            self.look();
            self.tell_all();
        }
    }

    /// Reads all files and folders. Whether there are some.
    fn look(&self) -> bool {
        let mut has_files = false;
        for it in &self.sources.all {
            match it {
                Source::File(domain, path) => drop(self.take(domain, &path.display().to_string(), read(path), Form::Bundle)),
                Source::Folder(path) => self.look_in(path),
                _ => continue,
            }
            has_files = true;
        }
        has_files
    }

    /// Reads each bundle of a folder, and drops those whose file is gone.
    fn look_in(&self, folder: &Path) {
        let source = folder.display().to_string();
        let names = folder.read_dir().and_then(|entries| entries.map(|it| it.map(|it| it.file_name())).collect::<Result<Vec<_>, _>>());
        let names = match names {
            Ok(names) => names,
            Err(why) => return self.fault(&source, &source, Some(why.to_string())),
        };
        self.fault(&source, &source, None);
        let mut there = Vec::new();
        for name in names.iter().filter(|name| name.to_string_lossy().ends_with(".json") && !name.to_string_lossy().starts_with('.')) {
            let path = folder.join(name);
            let of_file = path.display().to_string();
            let domain = name.to_str().and_then(|name| name.strip_suffix(".json")).unwrap_or_default();
            if !is_domain(domain) {
                self.fault(domain, &of_file, Some("its name is not DOMAIN.json of a trust domain".to_owned()));
            } else if self.sources.all.iter().any(|it| it.domain() == Some(domain)) {
                self.fault(domain, &of_file, Some("another source has the bundle of this trust domain".to_owned()));
            } else {
                self.take(domain, &of_file, read(&path), Form::Bundle);
            }
            there.push(of_file);
        }
        // (the names of sources are texts, and that of a folder need be none)
        let is_gone = |of: &str| Path::new(of).parent() == Some(Path::new(&source)) && !there.iter().any(|it| it == of);
        let mut state = self.state();
        let is_named = |of: &str| self.sources.all.iter().any(|it| matches!(it, Source::File(_, path) if path.display().to_string() == of));
        let before = state.held.len();
        state.held.retain(|_, it| is_named(&it.source) || !is_gone(&it.source));
        state.is_due |= state.held.len() < before;
        state.faults.retain(|of, _| is_named(of) || !is_gone(of));
    }

    /// Takes what a source gave, if it is a good bundle, and says whether it is.
    pub fn take(&self, domain: &str, source: &str, read: Result<Vec<u8>, String>, form: Form) -> bool {
        let is_held = |text: &[u8]| self.state().held.get(domain).map_or(false, |it| it.text == text && it.source == source);
        let judged = read.and_then(|text| match is_held(&text) {
            true => Ok(None),
            false => judge(domain, &text, form).map(|()| Some(text)),
        });
        let is_good = judged.is_ok();
        match judged {
            Ok(Some(text)) => {
                let mut state = self.state();
                state.held.insert(domain.to_owned(), Held { text, form, source: source.to_owned() });
                state.is_due = true;
                drop(state);
                self.fault(domain, source, None);
            }
            Ok(None) => self.fault(domain, source, None),
            Err(why) => self.fault(domain, source, Some(why)),
        }
        is_good
    }

    /// Hands all bundles to the guard if they have changed, and warns of bundles that it does not take.
    pub fn tell_all(&self) {
        match self.requests.upgrade() {
            Some(requests) if self.state().is_due => {
                let told = self.tell(&requests);
                self.fault("", "all bundles together", told.err().map(|why| why.to_string()));
            }
            _ => {}
        }
    }

    fn tell(&self, requests: &Requests) -> Result<(), Error> {
        let _telling = self.telling();
        {
            let mut state = self.state();
            if state.is_closing {
                return Ok(()); // (others are followed)
            }
            state.is_due = false;
        }
        let told = self.joined().and_then(|(text, has_bundles)| requests.exchange(Bundles::read(&text)?, has_bundles, self.named()));
        self.state().is_due |= told.is_err();
        told
    }

    /// The trust domains whose bundles the sources name.
    fn named(&self) -> Vec<String> {
        self.sources.all.iter().filter_map(|it| it.domain().map(str::to_owned)).collect()
    }

    /// The text of all bundles, and whether there are some.
    fn joined(&self) -> Result<(Vec<u8>, bool), Error> {
        let state = self.state();
        let held = state.held.iter().map(|(domain, it)| (Some(domain.as_str()), it.text.as_slice(), it.form));
        let has_bundles = self.sources.fixed().chain(held.clone()).next().is_some();
        Ok((bundles::join(self.sources.fixed().chain(held))?, has_bundles))
    }

    /// Warns of the fault of a source, if it is another one than before.
    pub fn fault(&self, domain: &str, source: &str, why: Option<String>) {
        let mut state = self.state();
        let stays = if state.held.contains_key(domain) { "; the last good one stays" } else { "" };
        match why {
            None => {
                let last = state.faults.remove(source);
                drop(state);
                if last.is_some() {
                    // (a logger must not end the thread that follows)
                    let _ = std::panic::catch_unwind(|| log::info!("the trust bundle is well again: {source}"));
                }
            }
            Some(why) if state.faults.get(source) != Some(&why) => {
                state.faults.insert(source.to_owned(), why.clone());
                drop(state);
                if let Some(requests) = self.requests.upgrade() {
                    requests.warn(&format_args!("a trust bundle is not read{stays}: {source}: {why}"));
                }
            }
            Some(_) => {}
        }
    }

    /// Waits for the beginning. False if the end comes first.
    fn begins(&self) -> bool {
        let waits = self.comes.wait_while(self.state(), |state| !state.is_begun && !state.is_closing);
        !waits.unwrap_or_else(PoisonError::into_inner).is_closing
    }

    /// Waits, and says whether the end has come.
    pub fn ends_within(&self, pause: Duration) -> bool {
        let waits = self.comes.wait_timeout_while(self.state(), pause, |state| !state.is_closing);
        waits.unwrap_or_else(PoisonError::into_inner).0.is_closing
    }

    fn telling(&self) -> MutexGuard<'_, ()> {
        self.telling.lock().unwrap_or_else(PoisonError::into_inner)
    }

    fn state(&self) -> MutexGuard<'_, State> {
        self.state.lock().unwrap_or_else(PoisonError::into_inner)
    }
}

#[cfg(any(feature = "https", feature = "workload"))]
impl Shared {
    /// Asks the source of this number again and again, until the end.
    fn ask(&self, number: usize) {
        match self.sources.all.get(number) {
            #[cfg(feature = "https")]
            Some(Source::Endpoint(it)) => self.until_the_end(&it.domain, &it.url, crate::endpoint::follow(self, it)),
            #[cfg(feature = "workload")]
            Some(Source::Workload(it)) => self.until_the_end("", &it.address, crate::workload::follow(self, it)),
            _ => {}
        }
    }

    /// Does the work of a source, until the end.
    fn until_the_end(&self, domain: &str, source: &str, work: impl std::future::Future<Output = ()>) {
        let runtime = loop {
            // (where the system has no room for it now, it may have later)
            match tokio::runtime::Builder::new_current_thread().enable_all().build() {
                Ok(runtime) => break runtime,
                Err(why) => self.fault(domain, source, Some(why.to_string())),
            }
            if self.ends_within(LONGEST) {
                return;
            }
        };
        let mut closing = self.closing.subscribe();
        // (without who could say so, the end has come too)
        let is_open = |it: &tokio::sync::watch::Receiver<bool>| !*it.borrow();
        let end = async { while is_open(&closing) && closing.changed().await.is_ok() {} };
        runtime.block_on(async {
            tokio::select! {
                biased;
                () = end => {}
                () = work => {}
            }
        });
        // (the resolver of names may take longer than anybody waits)
        runtime.shutdown_background();
    }

    /// The last good bundle of a trust domain, also one that never changes.
    #[cfg(feature = "https")]
    pub fn last(&self, domain: &str) -> Option<Vec<u8>> {
        let fixed = self.sources.fixed().find(|(name, ..)| *name == Some(domain)).map(|(_, text, _)| text.to_vec());
        fixed.or_else(|| self.state().held.get(domain).map(|it| it.text.clone()))
    }

    /// Takes the bundles of all trust domains that a Workload API names, and drops those that it names no more.
    #[cfg(feature = "workload")]
    pub fn take_all(&self, api: &crate::workload::WorkloadApi, bundles: BTreeMap<String, Vec<u8>>) -> Result<(), Why> {
        let is_none = bundles.is_empty();
        self.fault("", &api.address, is_none.then(|| "it gives no bundle".to_owned()));
        if is_none {
            return Ok(()); // (it always has that of its own trust domain)
        }
        let mut there = std::collections::HashSet::new();
        for (name, text) in bundles {
            // (a name that is none is judged with its bundle)
            let id = SpiffeId::parse(&name).ok().filter(|it| it.path().is_empty());
            let domain = id.as_ref().map_or(name.as_str(), |it| it.trust_domain());
            let source = api.of(domain);
            if !self.sources.all.iter().any(|it| it.domain() == Some(domain)) {
                self.take(domain, &source, Ok(text), Form::Keys);
            }
            there.insert(source);
        }
        let mut state = self.state();
        let (before, own) = (state.held.len(), api.of(""));
        let is_gone = |of: &str| of.ends_with(&own) && !there.contains(of);
        state.held.retain(|_, it| !is_gone(&it.source));
        state.is_due |= state.held.len() < before;
        state.faults.retain(|of, _| !is_gone(of));
        drop(state);
        self.tell_all();
        match self.state().is_due {
            true => Err("the guard did not take the bundles".into()),
            false => Ok(()),
        }
    }
}

/// Why a source gave no bundle.
#[cfg(any(feature = "https", feature = "workload"))]
pub(crate) type Why = Box<dyn std::error::Error + Send + Sync>;

/// An error, and what it comes from: what a library says first may be short.
#[cfg(any(feature = "https", feature = "workload"))]
pub(crate) fn told(why: &(dyn std::error::Error + 'static)) -> String {
    let mut text = why.to_string();
    let mut source = why.source();
    while let Some(it) = source {
        let more = it.to_string();
        if !text.contains(&more) {
            text = format!("{text}: {more}");
        }
        source = it.source();
    }
    text.chars().take(1024).collect()
}

impl std::fmt::Debug for Shared {
    fn fmt(&self, f: &mut std::fmt::Formatter<'_>) -> std::fmt::Result {
        f.debug_struct("Shared").finish_non_exhaustive()
    }
}

/// Whether the library reads a bundle of this trust domain.
fn judge(domain: &str, text: &[u8], form: Form) -> Result<(), String> {
    if text.len() > MOST {
        return Err(format!("it has more than {MOST} bytes"));
    }
    let read = bundles::join([(Some(domain), text, form)]).and_then(|text| Bundles::read(&text));
    read.map(drop).map_err(|why| match why {
        Error::Bundles(BundlesFault::Document { fault, .. }) => fault.to_string(),
        why => why.to_string(),
    })
}

/// Reads a regular file, as far as a bundle may go. (To open a pipe may take for ever.)
pub(crate) fn read(path: &Path) -> Result<Vec<u8>, String> {
    let read = || {
        if !path.metadata()?.is_file() {
            return Ok(Err("it is no regular file".to_owned()));
        }
        let mut text = Vec::new();
        File::open(path)?.take(MOST as u64 + 1).read_to_end(&mut text)?;
        Ok(Ok(text))
    };
    read().unwrap_or_else(|why: std::io::Error| Err(why.to_string()))
}
