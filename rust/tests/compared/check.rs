//! Whether tables are sound.

use crate::lent::Lent;
use crate::sets::shown;
use hubeltxa::raw;

/// What the C function says, on guarded words, which must all be left as they were.
pub fn through_c(samples: &[u32], octants: &[u32]) -> bool {
    let (mut s, mut o) = (Lent::new(samples), Lent::new(octants));
    let number = {
        let (s, o) = (s.within(), o.within());
        unsafe { raw::hbx_check(s.as_ptr(), s.len(), o.as_ptr(), o.len()) }
    };
    assert!(number <= 1, "the library says {number} on {}", shown(samples, octants));
    assert!(s.left() == Some(samples) && o.left() == Some(octants), "a check wrote on {}", shown(samples, octants));
    number == 1
}
