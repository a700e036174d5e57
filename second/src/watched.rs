//! Which pages of a lent sheet are touched, and in which order.
use crate::guard::{mprotect, NOTHING, READ_AND_WRITE};
use std::ffi::c_void;
use std::sync::atomic::{AtomicUsize, Ordering::SeqCst};
use std::sync::Mutex;

/// The action for a signal, as the C library has it on 64-bit Linux.
#[repr(C)]
struct Action {
    handler: usize,
    blocked: [u64; 16],
    flags: i32,
    restorer: usize,
}

/// The start of what a signal tells on 64-bit Linux: for a touch, up to its address.
#[repr(C)]
struct Told {
    skipped: [i32; 4],
    address: usize,
}

extern "C" {
    fn sigaction(signal: i32, action: *const Action, before: *mut Action) -> i32;
    fn sysconf(name: i32) -> i64;
}

const SEGV: i32 = 11;
const TELLS: i32 = 4;
const PAGE_SIZE: i32 = 30;
/// The signal's usual end of a program.
const USUAL: Action = Action { handler: 0, blocked: [0; 16], flags: 0, restorer: 0 };

/// One more than the most pages of a sheet: no list that is full can be strictly increasing.
const MOST: usize = 4096 + 1;

/// One sheet is watched at a time.
static WATCHED: Mutex<()> = Mutex::new(());
static START: AtomicUsize = AtomicUsize::new(0);
static BYTES: AtomicUsize = AtomicUsize::new(0);
static PAGE: AtomicUsize = AtomicUsize::new(0);
static COUNT: AtomicUsize = AtomicUsize::new(0);
static TOUCHED: [AtomicUsize; MOST] = [const { AtomicUsize::new(0) }; MOST];

/// How many bytes a page of this machine has.
pub fn page_size() -> usize {
    // SAFETY: only asks.
    unsafe { sysconf(PAGE_SIZE) as usize }
}

/// What `draw` gives when it is lent the sheet, and the pages in the order of their touches: every page is closed until it
/// is touched, and again once another is. When the list is full all stay open, so that a wrong order ends in good time.
pub fn watch<T>(sheet: &mut [u8], draw: impl FnOnce(&mut [u8]) -> T) -> (T, Vec<usize>) {
    let _alone = WATCHED.lock().expect("no watch stops");
    let (start, bytes, page) = (sheet.as_ptr() as usize, sheet.len(), page_size());
    assert!(bytes % page == 0 && bytes / page < MOST, "{bytes} bytes are not as many pages as can be watched");
    for (number, value) in [(&START, start), (&BYTES, bytes), (&PAGE, page), (&COUNT, 0)] {
        number.store(value, SeqCst);
    }
    let watching = Action { handler: touched as *const () as usize, flags: TELLS, ..USUAL };
    let mut before = USUAL;
    // SAFETY: the action is laid out as the C library has it.
    assert_eq!(unsafe { sigaction(SEGV, &watching, &mut before) }, 0, "touches cannot be watched");
    allow(start, bytes, NOTHING);
    let drawn = draw(sheet);
    allow(start, bytes, READ_AND_WRITE);
    // SAFETY: the action that was there.
    unsafe { sigaction(SEGV, &before, std::ptr::null_mut()) };
    let pages = TOUCHED[..COUNT.load(SeqCst)].iter().map(|page| page.load(SeqCst));
    (drawn, pages.collect())
}

fn allow(start: usize, bytes: usize, what: i32) {
    // SAFETY: pages of the watched sheet, which is lent to the watch; a touch of a closed one opens it.
    assert_eq!(unsafe { mprotect(start as *mut c_void, bytes, what) }, 0, "pages cannot be opened or closed");
}

/// Called where a closed page was touched: writes it down, opens it and closes the one before.
extern "C" fn touched(signal: i32, told: *const Told, _: *const c_void) {
    let [start, bytes, page, count] = [&START, &BYTES, &PAGE, &COUNT].map(|number| number.load(SeqCst));
    // SAFETY: the system tells a touch so.
    let at = unsafe { (*told).address }.wrapping_sub(start);
    if at >= bytes {
        // SAFETY: the same touch again ends the program.
        unsafe { sigaction(signal, &USUAL, std::ptr::null_mut()) };
        return;
    }
    TOUCHED[count].store(at / page, SeqCst);
    COUNT.store(count + 1, SeqCst);
    if count + 1 == MOST {
        return allow(start, bytes, READ_AND_WRITE);
    }
    if count > 0 {
        allow(start + TOUCHED[count - 1].load(SeqCst) * page, page, NOTHING);
    }
    allow(start + at / page * page, page, READ_AND_WRITE);
}

#[cfg(test)]
mod tests {
    use super::*;
    use crate::guard::{Against, Guarded};
    use std::hint::black_box;

    #[test]
    fn pages_are_told_in_the_order_of_their_touches() {
        let page = page_size();
        let mut room = Guarded::with_room(9 * page);
        let sheet = room.lend::<u8>(9 * page, Against::Before);
        let places = [8 * page, 9 * page - 1, 0, 1, 3 * page, page - 1];
        let draw = |sheet: &mut [u8]| places.iter().for_each(|&place| *black_box(&mut sheet[place]) = 1);
        assert_eq!(watch(sheet, draw), ((), vec![8, 0, 3, 0]));
        assert!(places.iter().all(|&place| sheet[place] == 1));
        assert_eq!(watch(sheet, |sheet| sheet[5 * page]), (0, vec![5]));
        assert_eq!(watch(sheet, |_| ()), ((), vec![]));
        let there_and_back = |sheet: &mut [u8]| (0..2 * MOST).for_each(|i| *black_box(&mut sheet[i % 2 * page]) = 2);
        assert_eq!(watch(sheet, there_and_back).1.len(), MOST);
    }
}
