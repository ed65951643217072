//! The exported functions of the library: a slice is a pointer and a length.

#[derive(Clone, Copy, PartialEq, Eq, Debug)]
#[repr(C)]
pub struct Entry {
    pub mark: u8,
    pub value: u32,
}

type Best = unsafe extern "C" fn(*const u32, usize, usize, usize, *mut Entry, usize) -> u8;

unsafe extern "C" {
    fn questions_order(cells: *const u32, cells_len: usize, keys: usize, start: usize, out: *mut u8, out_len: usize, count: *mut usize) -> u8;
    fn questions_total(cells: *const u32, cells_len: usize, keys: usize, start: usize, out: *mut Entry, out_len: usize) -> u8;
    fn questions_weakest(cells: *const u32, cells_len: usize, keys: usize, start: usize, out: *mut Entry, out_len: usize) -> u8;
}

pub fn order(cells: &[u32], keys: usize, start: usize, out: &mut [u8], count: &mut usize) -> u8 {
    unsafe { questions_order(cells.as_ptr(), cells.len(), keys, start, out.as_mut_ptr(), out.len(), count) }
}

fn best(f: Best, cells: &[u32], keys: usize, start: usize, out: &mut [Entry]) -> u8 {
    unsafe { f(cells.as_ptr(), cells.len(), keys, start, out.as_mut_ptr(), out.len()) }
}

pub fn total(cells: &[u32], keys: usize, start: usize, out: &mut [Entry]) -> u8 {
    best(questions_total, cells, keys, start, out)
}

pub fn weakest(cells: &[u32], keys: usize, start: usize, out: &mut [Entry]) -> u8 {
    best(questions_weakest, cells, keys, start, out)
}
