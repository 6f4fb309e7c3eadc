//! Document 01's public calls, answered by the Rust original. What document 01
//! adds to the original stands here; all else is the original's own doing.

mod calls;
mod keys;
mod list;
mod number;
mod said;
mod scan;
mod session;
mod space;

pub use keys::{key_len, key_order, key_read, key_write};
pub use list::operations;
pub use outcome::{Outcome, Space, CLEAN, DEBRIS, PENDING};
pub use sequential_storage::flash::ScriptedFlash;
pub use sequential_storage::image;
pub use session::{erased, Session};
pub use space::walk;
