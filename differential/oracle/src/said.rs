//! What the original said, before the state is added to it.

#[derive(Clone, Copy, Debug, Default)]
pub(crate) struct Said {
    pub answer: u64,
    pub number: u64,
    pub v: [u64; 3],
    pub count: u64,
    pub length: u64,
}

impl Said {
    pub fn answer(answer: u64) -> Self {
        Said { answer, ..Said::default() }
    }

    pub fn refused(number: u64, v: [u64; 3]) -> Self {
        Said { number, v, ..Said::default() }
    }

    pub fn yes_or_no(yes: bool) -> Self {
        Said::answer(if yes { 1 } else { 2 })
    }
}
