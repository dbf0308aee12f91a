//! Texts and causes of errors, the error that both pools have, and errors under a pool's name.
use std::borrow::Cow;
use std::error::Error;
use std::fmt;

/// Gives an error its texts, and says which of its kinds have a cause, and which are there with a feature alone.
macro_rules! error_texts {
    ($error:ident $(<$of:ident $(: $life:lifetime)?>)? { $($(#[$when:meta])? $kind:pat => $text:literal $(from $cause:ident)?,)* }) => {
        impl $(<$of: std::fmt::Display>)? std::fmt::Display for $error $(<$of>)? {
            fn fmt(&self, f: &mut std::fmt::Formatter<'_>) -> std::fmt::Result {
                match self {
                    $($(#[$when])? $kind => write!(f, $text),)*
                }
            }
        }

        impl $(<$of: std::error::Error $(+ $life)?>)? std::error::Error for $error $(<$of>)? {
            fn source(&self) -> Option<&(dyn std::error::Error + 'static)> {
                #[allow(unreachable_patterns, reason = "the last arm is for kinds without a cause, and an error may have none")]
                match self {
                    $($($kind => Some($cause),)?)*
                    _ => None,
                }
            }
        }
    };
}
pub(crate) use error_texts;

/// No memory was found, and nothing has changed.
#[derive(Clone, Copy, Debug, PartialEq, Eq)]
pub struct OutOfMemory;

error_texts! { OutOfMemory {
    Self => "Out of memory",
} }

/// An error under the name of the pool that it came from, as [`Pool::named`](crate::managed::Pool::named) gives it. It is printed as
/// `pool orders: Pool has been closed`; without a name it has the error's own text.
#[derive(Clone, Debug, PartialEq, Eq)]
pub struct Named<E> {
    /// The pool's name, if it has one.
    pub name: Option<Cow<'static, str>>,
    /// The error.
    pub error: E,
}

impl<E: fmt::Display> fmt::Display for Named<E> {
    fn fmt(&self, f: &mut fmt::Formatter<'_>) -> fmt::Result {
        self.name.iter().try_for_each(|name| write!(f, "pool {name}: "))?;
        self.error.fmt(f)
    }
}

/// Its source is that of the error, whose text it has already.
impl<E: Error> Error for Named<E> {
    fn source(&self) -> Option<&(dyn Error + 'static)> {
        self.error.source()
    }
}
