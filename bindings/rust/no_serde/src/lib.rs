//! Nothing: the crate above names this package in place of serde where it is built by itself.

compile_error!(
    "the feature `serde` is for crates that depend on `cvss_proved`; bindings/rust/advisory is one"
);
