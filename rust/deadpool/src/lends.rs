//! How objects lend their values.

/// Has an object lend its value, which is in an `Option` until the object is taken or dropped.
macro_rules! lends_value {
    ([$($of:tt)*] $object:ty => $value:ty, in $held:ident $(. $field:ident)*) => {
        impl<$($of)*> std::ops::Deref for $object {
            type Target = $value;

            fn deref(&self) -> &$value {
                &(*self.$held.as_ref().expect("an object has its value"))$(.$field)*
            }
        }

        impl<$($of)*> std::ops::DerefMut for $object {
            fn deref_mut(&mut self) -> &mut $value {
                &mut (*self.$held.as_mut().expect("an object has its value"))$(.$field)*
            }
        }

        impl<$($of)*> AsRef<$value> for $object {
            fn as_ref(&self) -> &$value {
                self
            }
        }

        impl<$($of)*> AsMut<$value> for $object {
            fn as_mut(&mut self) -> &mut $value {
                self
            }
        }
    };
}
pub(crate) use lends_value;
