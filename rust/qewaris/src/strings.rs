//! String lookups: the value of a string setting as the part of the file where it stands, in both formats still escaped, and the bytes
//! that it means.

use crate::escapes;
use crate::raw;
use crate::refusal::{answered, Refusal};
use crate::Hidden;
use std::borrow::Cow;
use std::fmt;

/// The value of a string setting. `Debug` does not show it, since it may be a passphrase.
///
/// ```
/// let file = b"[service_till]\nType = wifi\nName = Desk\\s4\nPassphrase = low tide 88\n";
/// let name = qewaris::service_name(b"shop.config", file, 1)?.expect("it is there");
/// assert_eq!((name.line, name.bytes), (3, &b"Desk\\s4"[..]));
/// assert_eq!(*name.unescaped(), *b"Desk 4");
/// # Ok::<(), qewaris::Refusal>(())
/// ```
#[derive(Clone, Copy, PartialEq, Eq)]
pub struct Text<'a> {
    /// The line of the setting, counted from 1.
    pub line: usize,
    /// Where the value starts in the file.
    pub start: usize,
    /// The value as it stands in the file, still escaped.
    pub bytes: &'a [u8],
}

impl<'a> Text<'a> {
    /// The bytes that the value means: those of the join record, where it has this string. Borrowed where the value has no escape.
    pub fn unescaped(&self) -> Cow<'a, [u8]> {
        escapes::unescaped(self.bytes)
    }
}

impl fmt::Debug for Text<'_> {
    fn fmt(&self, f: &mut fmt::Formatter<'_>) -> fmt::Result {
        f.debug_struct("Text")
            .field("line", &self.line)
            .field("start", &self.start)
            .field("bytes", &Hidden)
            .finish()
    }
}

/// The part of the file that an answer names; none where the setting is absent.
fn part(file: &[u8], text: raw::Text) -> Result<Option<Text<'_>>, Refusal> {
    answered(text.number, text.line, || {
        let bytes = &file[text.start..text.start + text.length];
        (text.line > 0).then_some(Text {
            line: text.line,
            start: text.start,
            bytes,
        })
    })
}

macro_rules! lookup {
    ($(#[$note:meta])* $name:ident, $function:ident $(, $service:ident)?) => {
        $(#[$note])*
        pub fn $name<'a>(name: &[u8], file: &'a [u8] $(, $service: usize)?) -> Result<Option<Text<'a>>, Refusal> {
            // SAFETY: the pointers and lengths are those of slices, which nothing changes during the call.
            part(file, unsafe { raw::$function(name.as_ptr(), name.len(), file.as_ptr(), file.len() $(, $service)?) })
        }
    };
}

lookup!(
    /// Passphrase of an iwd file.
    ///
    /// ```
    /// let file = b"[Security]\nPassphrase=\\slow tide\n";
    /// let text = qewaris::iwd_passphrase(b"Desk 4.psk", file)?.expect("it is there");
    /// assert_eq!((text.line, text.bytes), (2, &b"\\slow tide"[..]));
    /// # Ok::<(), qewaris::Refusal>(())
    /// ```
    iwd_passphrase,
    qewaris_iwd_passphrase
);
lookup!(
    /// DomainName of an iwd file.
    iwd_domain_name,
    qewaris_iwd_domain_name
);
lookup!(
    /// Name of the group `global` of a ConnMan file.
    global_name,
    qewaris_global_name
);
lookup!(
    /// Description of the group `global` of a ConnMan file.
    global_description,
    qewaris_global_description
);
lookup!(
    /// Name of a service of a ConnMan file, by its number from 1.
    service_name,
    qewaris_service_name,
    service
);
lookup!(
    /// Passphrase of a service of a ConnMan file, by its number from 1.
    service_passphrase,
    qewaris_service_passphrase,
    service
);
lookup!(
    /// Domain of a service of a ConnMan file, by its number from 1.
    service_domain,
    qewaris_service_domain,
    service
);
