//! The calls of the registry of durability debt, in numbers.
use crate::Error;
use crate::foreign::{BAD_CALL, DONE, kinds};

kinds! {
    /// The kinds of calls of the registry.
    DebtKind {
        Admit = 0,
        Release = 1,
        Settle = 2,
        Debt = 3,
        Clear = 4,
        Fail = 5,
        Close = 6,
        Forget = 7,
        ForgetPartition = 8,
        IsSettled = 9,
        Keeps = 10,
    }
}

/// A call of the registry, without its names.
#[repr(C)]
pub(crate) struct DebtCall {
    kind: DebtKind,
    /// The status of a failure, or `DONE`.
    failure: u32,
    number: usize,
    flag: bool,
}

/// What the registry returns.
#[repr(C)]
pub(crate) struct DebtReply {
    pub(crate) status: u32,
    pub(crate) flag: bool,
    pub(crate) has_predecessor: bool,
    pub(crate) number: usize,
    pub(crate) predecessor: usize,
}

/// The status of the refusal of a name that is open.
const BLOB_ALREADY_OPEN: u32 = 21;

impl DebtCall {
    /// A call of the open with this number.
    pub(crate) fn of_open(kind: DebtKind, number: usize) -> DebtCall {
        DebtCall {
            kind,
            failure: DONE,
            number,
            flag: false,
        }
    }

    /// A call of a name.
    pub(crate) fn of_name(kind: DebtKind) -> DebtCall {
        DebtCall::of_open(kind, 0)
    }

    /// Sets whether the blob exists that is admitted, or whether the open that settles adds debt.
    pub(crate) fn flag(mut self, flag: bool) -> DebtCall {
        self.flag = flag;
        self
    }

    /// Adds a failure. One with texts has no status, and the library refuses it.
    pub(crate) fn failure(mut self, failure: Option<Error>) -> DebtCall {
        self.failure = failure.map_or(DONE, |failure| failure.status().unwrap_or(u32::MAX));
        self
    }
}

impl DebtReply {
    /// The numbers of a reply, or the refusal. `already` is the error of a name that is open.
    pub(crate) fn taken(self, already: impl FnOnce() -> Error) -> Result<DebtReply, Error> {
        match self.status {
            DONE => Ok(self),
            BLOB_ALREADY_OPEN => Err(already()),
            BAD_CALL => Err(Error::argument("a failure with texts isn't kept")),
            other => Err(Error::of(other, "")),
        }
    }
}

#[cfg(test)]
mod tests {
    use super::*;
    use crate::foreign::tests::{check_kinds, header};

    #[test]
    fn kinds_are_those_of_the_header() {
        check_kinds(&header(), "DEBT_", DebtKind::ALL);
        assert_eq!(header()["E_BLOB_ALREADY_OPEN"], BLOB_ALREADY_OPEN);
    }
}
