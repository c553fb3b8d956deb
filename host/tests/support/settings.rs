//! How much is compared, by the environment.

use std::env;

/// The number that a variable of the environment has, if it is set.
pub fn setting(name: &str) -> Option<u64> {
    let value = env::var(name).ok()?;
    Some(
        value
            .parse()
            .unwrap_or_else(|_| panic!("{name} isn't a number: {value}")),
    )
}
