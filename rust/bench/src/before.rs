//! The decoder of an earlier library.

#[macro_use]
#[path = "../../widagbe/src/call.rs"]
mod call;

pub struct Before;

decoder! { Before, before_widagbe_decode }
