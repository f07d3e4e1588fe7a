//! Stands in for the original's module of this name: how it reads the headers of a request.

use std::convert::Infallible;
use std::error::Error;

pub trait HeaderMap {
    type Error: Error;

    fn extract(&self, name: &str) -> Result<Option<&str>, Self::Error>;
}

/// Pairs of a name and a value.
impl HeaderMap for Vec<(String, String)> {
    type Error = Infallible;

    fn extract(&self, name: &str) -> Result<Option<&str>, Infallible> {
        let found = self.iter().find(|it| it.0.eq_ignore_ascii_case(name));
        Ok(found.map(|it| it.1.as_str()))
    }
}
