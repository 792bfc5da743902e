//! Over an archive of another layout nothing is called but `hop_layout`. The repository's `tests/rust_surface` builds one, in which any other function
//! ends the process, and runs this over it.

use hop::{Header, HopSlotMap, Refusal};

#[test]
#[ignore = "wants an archive of another layout"]
fn an_archive_of_another_layout_is_refused() {
    let (mut links, mut rows) = ([0; 16], [0; 32]);
    assert_eq!(HopSlotMap::new(&mut links, &mut rows).err(), Some(Refusal::OtherArchive));
    assert_eq!(HopSlotMap::rebuild(&mut links, &mut rows, &[0]).err(), Some(Refusal::OtherArchive));
    assert_eq!(HopSlotMap::with_header(&mut links, &mut rows, Header { used: 1, live: 0 }).err(), Some(Refusal::OtherArchive));
}
