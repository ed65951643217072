//! A schedule over words and over a byte image, the page that it leaves, and questions to the page. docs/C.md tells of it.

/// The best value of a key: mark 1 and the value where a walk reaches the key, 0 and 0 where none does.
#[repr(C)]
#[derive(Clone, Copy, Default, Debug, PartialEq, Eq)]
struct Entry {
    mark: u8,
    value: u32,
}

// The functions of zibdalk.h: a slice is a pointer and a length.
unsafe extern "C" {
    fn zibdalk_words(words: *mut u32, words_len: usize, text: *const u8, text_len: usize, out: *mut u8, out_len: usize) -> usize;
    fn zibdalk_image(bytes: *mut u8, bytes_len: usize, text: *const u8, text_len: usize, out: *mut u8, out_len: usize) -> usize;
    fn questions_order(cells: *const u32, cells_len: usize, keys: usize, start: usize, out: *mut u8, out_len: usize, count: *mut usize) -> u8;
    fn questions_total(cells: *const u32, cells_len: usize, keys: usize, start: usize, out: *mut Entry, out_len: usize) -> u8;
    fn questions_weakest(cells: *const u32, cells_len: usize, keys: usize, start: usize, out: *mut Entry, out_len: usize) -> u8;
}

type Best = unsafe extern "C" fn(*const u32, usize, usize, usize, *mut Entry, usize) -> u8;

/// Replies to the lines of a text over words, into `out`; the reply lines.
fn replay_words<'a>(words: &mut [u32], text: &[u8], out: &'a mut [u8]) -> &'a [u8] {
    // SAFETY: three slices that do not overlap; the library writes within two of them.
    let written = unsafe { zibdalk_words(words.as_mut_ptr(), words.len(), text.as_ptr(), text.len(), out.as_mut_ptr(), out.len()) };
    &out[..written]
}

/// The same over a byte image.
fn replay_image<'a>(bytes: &mut [u8], text: &[u8], out: &'a mut [u8]) -> &'a [u8] {
    // SAFETY: as above.
    let written = unsafe { zibdalk_image(bytes.as_mut_ptr(), bytes.len(), text.as_ptr(), text.len(), out.as_mut_ptr(), out.len()) };
    &out[..written]
}

/// The keys that walks from `start` reach, breadth first, or the byte of the reason why there is no answer.
fn order(page: &[u32], keys: usize, start: usize) -> Result<Vec<u8>, u8> {
    let (mut listed, mut count) = (vec![0; keys], 0);
    // SAFETY: two slices and a count, which do not overlap.
    let why = unsafe { questions_order(page.as_ptr(), page.len(), keys, start, listed.as_mut_ptr(), listed.len(), &mut count) };
    listed.truncate(count);
    if why == 0 { Ok(listed) } else { Err(why) }
}

/// The best value of each key from `start`, where a walk reaches it, or the byte of the reason why there is no answer.
fn best(measure: Best, page: &[u32], keys: usize, start: usize) -> Result<Vec<Option<u32>>, u8> {
    let mut entries = vec![Entry::default(); keys];
    // SAFETY: two slices that do not overlap.
    let why = unsafe { measure(page.as_ptr(), page.len(), keys, start, entries.as_mut_ptr(), entries.len()) };
    let values = entries.iter().map(|entry| (entry.mark == 1).then_some(entry.value));
    if why == 0 { Ok(values.collect()) } else { Err(why) }
}

/// The cells that a run of n keys, w workers, a vertex rows and b edge rows of each worker needs.
fn cells(n: usize, w: usize, a: usize, b: usize) -> usize {
    1 + n + n * n + 3 * w * a + 6 * w * b + w * (n + n * n)
}

/// Opens a run, adds vertices 0, 1 and 2 and three edges, and takes a snapshot.
const SCHEDULE: &[u8] = b"0103010004000400000009
020001000000000000\n0300FF
020001010000000000\n0300FF
020001020000000000\n0300FF
020004000100000005\n0300FF
020004010200000002\n0300FF
020004000200000009\n0300FF
020007000000000000\n0300FF
";

fn show(name: &str, values: &[Option<u32>]) {
    print!("{name}:");
    for value in values {
        match value {
            Some(value) => print!(" {value}"),
            None => print!(" none"),
        }
    }
    println!();
}

fn main() {
    const KEYS: usize = 3;
    let needed = cells(KEYS, 1, 4, 4);
    let (mut words, mut image) = (vec![0; needed], vec![0; 4 * needed]);
    let (mut out, mut other) = ([0; 256], [0; 256]);
    let replies = replay_words(&mut words, SCHEDULE, &mut out);
    print!("{}", String::from_utf8_lossy(replies));
    assert_eq!(replies, replay_image(&mut image, SCHEDULE, &mut other), "words and image do not reply alike");

    // The page of worker 0 stands behind the clock, heads and rows, and is the last of the cells here.
    let page = &words[needed - (KEYS + KEYS * KEYS)..];
    let listed: Vec<Option<u32>> = order(page, KEYS, 0).unwrap().into_iter().map(|key| Some(key.into())).collect();
    show("order", &listed);
    show("total", &best(questions_total, page, KEYS, 0).unwrap());
    show("weakest", &best(questions_weakest, page, KEYS, 0).unwrap());
    assert_eq!(best(questions_total, page, KEYS, KEYS), Err(0xE6), "a start outside is not refused");

    // Room for two replies: the third line is not carried out, so the head of vertex 0, cell 1, is none.
    assert_eq!(replay_words(&mut words, SCHEDULE, &mut out[..16]), b"8100\n8200\n");
    assert_eq!(words[1], 0, "a line is carried out whose reply does not fit");
    // No run is open when a call begins, so a line that is no opening is refused.
    assert_eq!(replay_words(&mut words, &SCHEDULE[23..42], &mut out), b"FFED\n");
}
