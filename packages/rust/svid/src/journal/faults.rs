//! What tests do to the calls of the system on a state folder: they let some fail, and ask what a loss of power leaves.

use std::io;
#[cfg(test)]
use std::{collections::BTreeMap, fs, path::Path, sync::Arc, sync::Mutex};

/// Nothing is done to the calls but in tests.
#[cfg(not(test))]
#[derive(Clone, Default)]
pub struct Faults(());

#[cfg(not(test))]
impl Faults {
    pub fn of(&self, _call: &str, _name: &str) -> io::Result<()> {
        Ok(())
    }
}

#[cfg(test)]
#[derive(Clone, Default)]
pub struct Faults(Arc<Mutex<Disk>>);

/// What is known of a name since it changed.
#[cfg(test)]
#[derive(Clone, Copy, PartialEq)]
enum Name {
    New,
    /// A sync came behind it.
    Lasts,
    /// A sync failed, and no later one vouches for it.
    Stuck,
}

/// A disk where syncs alone make the folder, its names and the contents of the files last.
#[cfg(test)]
#[derive(Default)]
struct Disk {
    due: Vec<&'static str>,
    code: Option<i32>,
    ends: Option<(usize, bool)>,
    here: Option<Name>,
    names: BTreeMap<String, Name>,
    unsynced: BTreeMap<String, ()>,
    before_writes: Option<Arc<dyn Fn() + Send + Sync>>,
}

#[cfg(test)]
impl Faults {
    /// Lets the next call of each of these names fail.
    pub fn let_fail(&self, calls: &[&'static str]) {
        self.0.lock().unwrap().due.extend(calls);
    }

    /// Lets each write do this first.
    pub fn before_writes(&self, does: impl Fn() + Send + Sync + 'static) {
        self.0.lock().unwrap().before_writes = Some(Arc::new(does));
    }

    /// By which number of the system a call fails: EIO until this.
    pub fn fails_by(&self, code: i32) {
        self.0.lock().unwrap().code = Some(code);
    }

    /// Lets the call of this number from now on fail, counted from 1; or lets that one and all after it not be made, as if the process were
    /// killed. None: all are made.
    pub fn ends(&self, call: Option<(usize, bool)>) {
        self.0.lock().unwrap().ends = call;
    }

    /// That call.
    pub fn call(&self) -> Option<(usize, bool)> {
        self.0.lock().unwrap().ends
    }

    /// Whether that call came.
    pub fn has_ended(&self) -> bool {
        self.0.lock().unwrap().ends.map_or(false, |(left, _)| left == 0)
    }

    /// Asked before each call that changes something, with the name that it is about.
    pub fn of(&self, call: &str, name: &str) -> io::Result<()> {
        let before = self.0.lock().unwrap().before_writes.clone().filter(|_| call == "write");
        if let Some(does) = before {
            does();
        }
        let mut disk = self.0.lock().unwrap();
        let (mut fails, mut is_killed) = (false, false);
        match &mut disk.ends {
            Some((0, killed)) => is_killed = *killed,
            Some((left, killed)) => {
                *left -= 1;
                (fails, is_killed) = (*left == 0, *left == 0 && *killed);
            }
            None => {}
        }
        if let Some(at) = disk.due.iter().position(|it| *it == call) {
            disk.due.remove(at);
            fails = true;
        }
        if is_killed {
            return Err(io::ErrorKind::Interrupted.into());
        }
        if call == "sync above" {
            disk.here = disk.here.map(|it| synced(it, !fails));
        }
        if call == "sync folder" {
            disk.names.values_mut().for_each(|it| *it = synced(*it, !fails));
        }
        if fails {
            return Err(io::Error::from_raw_os_error(disk.code.unwrap_or(5)));
        }
        match call {
            "mkdir" if !Path::new(name).exists() => (disk.here, disk.names) = (Some(Name::New), BTreeMap::new()),
            "rmdir" => disk.here = None,
            "create" | "rename" => drop(disk.names.insert(name.to_owned(), Name::New)),
            "write" => drop(disk.unsynced.insert(name.to_owned(), ())),
            "sync" => drop(disk.unsynced.remove(name)),
            "remove" => drop(disk.names.remove(name)),
            _ => {}
        }
        Ok(())
    }

    /// Lets the disk have a folder, with a file of this name.
    pub fn has(&self, name: &str) {
        let mut disk = self.0.lock().unwrap();
        disk.here = Some(Name::Lasts);
        disk.names.insert(name.to_owned(), Name::Lasts);
    }

    /// What a loss of power surely leaves of a folder, in another one.
    pub fn lost(&self, folder: &Path, to: &Path) {
        let disk = self.0.lock().unwrap();
        if disk.here == Some(Name::Lasts) {
            fs::create_dir(to).unwrap();
            let lasts = disk.names.iter().filter(|(name, state)| **state == Name::Lasts && folder.join(name).exists());
            for (name, _) in lasts {
                let unsynced = disk.unsynced.contains_key(name) || name == "place" && disk.unsynced.contains_key("place.new");
                let content = if unsynced { Vec::new() } else { fs::read(folder.join(name)).unwrap() };
                fs::write(to.join(name), content).unwrap();
            }
        }
    }
}

#[cfg(test)]
fn synced(name: Name, ok: bool) -> Name {
    match (name, ok) {
        (Name::New, true) => Name::Lasts,
        (Name::New, false) => Name::Stuck,
        _ => name,
    }
}
