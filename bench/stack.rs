//! How deep a piece of work goes into the stack, seen from outside it: a new
//! thread's stack has no page in memory below where the thread stands, so that
//! the lowest page found there afterwards is the deepest that was touched.

use std::fs::File;
use std::io::{Error, Read, Result, Seek, SeekFrom};
use std::thread::Builder;

/// Far more than is hoped for, and too little for a huge page.
const STACK: usize = 1024 * 1024;
const PAGE: usize = 4096;
const ENTRY: usize = 8;

/// In bytes, rounded up to whole pages. The thread's own start and the look at
/// the pages are counted too, so that the figure is an upper one.
pub fn depth_of(work: impl FnOnce() + Send + 'static) -> Result<usize> {
    let thread = Builder::new().stack_size(STACK).spawn(move || {
        let here = 0_u8;
        let top = &raw const here as usize / PAGE;
        work();
        touched_below(top)
    });
    thread?.join().map_err(|_| Error::other("the thread ended early"))?
}

/// The kernel's page map has eight bytes for each page, the highest bit of the
/// last set if the page is in memory. The stack's last pages are left out, as
/// the thread has used some of it above.
fn touched_below(top: usize) -> Result<usize> {
    let pages = STACK / PAGE - 8;
    let mut map = File::open("/proc/self/pagemap")?;
    map.seek(SeekFrom::Start(((top + 1 - pages) * ENTRY) as u64))?;
    let mut entries = vec![0; pages * ENTRY];
    map.read_exact(&mut entries)?;
    let present = |entry: &[u8]| entry[ENTRY - 1] & 0x80 != 0;
    let lowest = entries.chunks_exact(ENTRY).position(present);
    lowest.map(|at| (pages - at) * PAGE).ok_or(Error::other("no page of the stack is in memory"))
}
