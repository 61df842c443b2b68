//! The original's six files, unchanged, over the stand-ins.
#![allow(dead_code, unexpected_cfgs)]

include!(concat!(env!("OUT_DIR"), "/modules.rs"));

use byte_pair_encoding::BytePairEncoding;
use std::cell::Cell;
use std::panic;
use std::sync::Once;

/// The original's build; a panic is its refusal.
pub fn build(rows: Vec<Vec<u8>>, factor: u64) -> Result<BytePairEncoding, String> {
    quietly(|| BytePairEncoding::from_dictionary(rows, Some(factor)))
}

thread_local! {
    static QUIET: Cell<bool> = const { Cell::new(false) };
}

/// Runs a call of the original; a panic becomes a value, and prints nothing.
pub fn quietly<T>(call: impl FnOnce() -> T) -> Result<T, String> {
    static HOOK: Once = Once::new();
    HOOK.call_once(|| {
        let usual = panic::take_hook();
        panic::set_hook(Box::new(move |info| {
            if !QUIET.get() {
                usual(info);
            }
        }));
    });
    QUIET.set(true);
    let answer = panic::catch_unwind(panic::AssertUnwindSafe(call));
    QUIET.set(false);
    answer.map_err(|cause| match (cause.downcast_ref::<String>(), cause.downcast_ref::<&str>()) {
        (Some(text), _) => text.clone(),
        (_, Some(text)) => text.to_string(),
        _ => String::new(),
    })
}
