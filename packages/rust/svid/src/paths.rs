//! Paths of requests that need no token.
//!
//! A server and what stands before it may each read a path in their own way: they decode it, join its slashes, resolve its dots. So a path that
//! they could read in two ways is on no list. The worst that comes of that is a request that needs a token.

/// A list of paths: "/a/b" is that path alone, and "/a/*" is each path below "/a".
#[derive(Debug, Clone, Default)]
pub(crate) struct Paths {
    alone: Vec<String>,
    above: Vec<String>,
}

impl Paths {
    /// Reads a list. The error is the number of the first text that is no path, counted from 0.
    pub fn of(texts: &[String]) -> Result<Paths, usize> {
        let mut made = Paths::default();
        for (number, text) in texts.iter().enumerate() {
            let (path, list) = match text.strip_suffix('*') {
                Some(above) if above.ends_with('/') => (above, &mut made.above),
                _ => (text.as_str(), &mut made.alone),
            };
            match is_plain(path) {
                true => list.push(path.to_owned()),
                false => return Err(number),
            }
        }
        Ok(made)
    }

    /// Whether a path is on the list.
    pub fn has(&self, path: &str) -> bool {
        let is_below = |above: &String| path.len() > above.len() && path.starts_with(above);
        is_plain(path) && (self.alone.iter().any(|it| it == path) || self.above.iter().any(is_below))
    }
}

/// Whether a path has segments alone that no URL has to escape, none of them empty, "." or "..". It may end in a slash.
fn is_plain(path: &str) -> bool {
    let is_of_a_segment = |byte: u8| byte.is_ascii_alphanumeric() || b"-._~".contains(&byte);
    let is_segment = |it: &str| !it.is_empty() && it != "." && it != ".." && it.bytes().all(is_of_a_segment);
    match path.strip_prefix('/') {
        Some("") => true,
        Some(rest) => rest.strip_suffix('/').unwrap_or(rest).split('/').all(is_segment),
        None => false,
    }
}

#[cfg(test)]
mod tests {
    use super::*;

    #[test]
    fn a_path_that_can_be_read_in_two_ways_is_on_no_list() {
        let paths = Paths::of(&["/", "/healthz", "/a/b/", "/static/*"].map(str::to_owned)).expect("they are paths");
        for path in ["/", "/healthz", "/a/b/", "/static/a", "/static/a/b~1.css", "/static/a/"] {
            assert!(paths.has(path), "{path}");
        }
        let others = ["", "healthz", "/healthz/", "/a/b", "/static", "/static/", "/static//a", "/static/../a", "/static/.", "/static/%61"];
        for path in others.iter().chain(&["/static/a?b", "/static/\u{e9}", "/staticx/a", "//", "/./healthz"]) {
            assert!(!paths.has(path), "{path}");
        }
        for (number, text) in ["", "a", "/a//b", "/..", "/a*", "*", "/%61", "/a b"].iter().enumerate() {
            let mut texts = vec!["/a".to_owned(); number];
            texts.push((*text).to_owned());
            assert_eq!(Paths::of(&texts).map(drop), Err(number), "{text}");
        }
    }
}
