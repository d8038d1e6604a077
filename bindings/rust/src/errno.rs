//! The refusals of calls, with Linux' names and numbers.

use std::error::Error;
use std::{fmt, io};

/// Why a call is refused. A refused call changes no table and writes nothing to a lent buffer.
///
/// Calls that are added later may refuse for other reasons, so a `match` has a case for them.
///
/// ```
/// use oarhatchet::{Errno, Tables};
///
/// let refusal = Tables::new().fork(9).unwrap_err();
/// assert_eq!(refusal, Errno::Esrch);
/// assert_eq!(refusal.number(), 3);
/// assert_eq!(refusal.to_string(), "ESRCH: no such process or namespace");
/// ```
#[derive(Clone, Copy, PartialEq, Eq, Hash, Debug)]
#[non_exhaustive]
pub enum Errno {
    /// 1: not permitted.
    Eperm,
    /// 3: no such process or namespace.
    Esrch,
    /// 11: 128 processes exist.
    Eagain,
    /// 22: bad text, number or list; already a member.
    Einval,
    /// 28: 64 namespaces exist.
    Enospc,
    /// 34: the buffer of a read is shorter than the text.
    Erange,
    /// 87: a namespace of level 33 is asked for.
    Eusers,
}

impl Errno {
    /// Every refusal, by number.
    pub const ALL: &'static [Errno] = &[
        Errno::Eperm,
        Errno::Esrch,
        Errno::Eagain,
        Errno::Einval,
        Errno::Enospc,
        Errno::Erange,
        Errno::Eusers,
    ];

    /// The refusal's number, which is Linux' own.
    pub const fn number(self) -> u32 {
        match self {
            Errno::Eperm => 1,
            Errno::Esrch => 3,
            Errno::Eagain => 11,
            Errno::Einval => 22,
            Errno::Enospc => 28,
            Errno::Erange => 34,
            Errno::Eusers => 87,
        }
    }

    /// The refusal's name, as `EPERM`.
    pub const fn name(self) -> &'static str {
        match self {
            Errno::Eperm => "EPERM",
            Errno::Esrch => "ESRCH",
            Errno::Eagain => "EAGAIN",
            Errno::Einval => "EINVAL",
            Errno::Enospc => "ENOSPC",
            Errno::Erange => "ERANGE",
            Errno::Eusers => "EUSERS",
        }
    }

    const fn meaning(self) -> &'static str {
        match self {
            Errno::Eperm => "not permitted",
            Errno::Esrch => "no such process or namespace",
            Errno::Eagain => "128 processes exist",
            Errno::Einval => "bad text, number or list, or already a member",
            Errno::Enospc => "64 namespaces exist",
            Errno::Erange => "read buffer short",
            Errno::Eusers => "level 33 asked for",
        }
    }
}

impl fmt::Display for Errno {
    fn fmt(&self, f: &mut fmt::Formatter<'_>) -> fmt::Result {
        write!(f, "{}: {}", self.name(), self.meaning())
    }
}

impl Error for Errno {}

/// The system's error of the same number, so that `?` works in a function that answers an [`io::Result`].
///
/// ```
/// use std::io;
///
/// fn second_bay(tables: &mut oarhatchet::Tables) -> io::Result<u64> {
///     tables.clone_process(1)?;
///     Ok(tables.clone_process(1)?.namespace)
/// }
///
/// assert_eq!(second_bay(&mut oarhatchet::Tables::new())?, 2);
/// # Ok::<(), io::Error>(())
/// ```
impl From<Errno> for io::Error {
    fn from(errno: Errno) -> io::Error {
        io::Error::from_raw_os_error(errno.number() as i32)
    }
}

/// What the number that a call gives means: its answer, or the refusal whose number is negated.
pub(crate) fn result_of(code: i64) -> Result<u64, Errno> {
    if let Ok(answer) = u64::try_from(code) {
        return Ok(answer);
    }
    let refusal = Errno::ALL.iter().find(|errno| code == -i64::from(errno.number()));
    Err(*refusal.unwrap_or_else(|| panic!("the archive answers {code}, which is no refusal")))
}
