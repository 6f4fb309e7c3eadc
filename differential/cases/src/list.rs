//! The list of cases: image tests first, then item calls.

use crate::{images, steps};

pub fn lines() -> String {
    let mut lines = images::lines();
    lines.extend(steps::lines());
    lines.iter().map(|line| format!("{line}\n")).collect()
}
