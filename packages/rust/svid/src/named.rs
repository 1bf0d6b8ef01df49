//! What all enums share that are written from a list of statuses.

/// Gives an enum with `ROWS` its names, its sentences, and the traits of an error. `due` says that a row ends with what is due.
macro_rules! named {
    ($kind:ident) => {
        named!($kind, |_| "");
    };
    ($kind:ident, due) => {
        named!($kind, |row: &(_, _, _, &'static str)| row.3);
    };
    ($kind:ident, $due:expr) => {
        impl $kind {
            /// The name in docs/FORMATS.md.
            pub fn name(self) -> &'static str {
                // (each has its row: they are written from one list)
                Self::ROWS.iter().find(|row| row.0 == self).map_or("", |row| row.2)
            }
        }

        impl $kind {
            /// What is wrong, and what to do.
            pub(crate) fn says(self) -> crate::words::Says {
                let row = Self::ROWS.iter().find(|row| row.0 == self);
                crate::words::Says { status: row.map_or(0, |row| row.1), due: row.map_or("", $due) }
            }
        }

        impl std::fmt::Display for $kind {
            fn fmt(&self, f: &mut std::fmt::Formatter<'_>) -> std::fmt::Result {
                write!(f, "{}: {}", self.name(), self.says())
            }
        }

        impl std::error::Error for $kind {}
    };
}
