//! What the page computes, as a module of WebAssembly. The caller puts bytes into the room and calls; what a call says is text: lines,
//! whose cells stand between tabs. A call returns whether it went well. Where it did not, what it says is a sentence for the user.
use std::cell::RefCell;

mod apart;
mod avalanche;
mod clock;
mod hashes;
mod keys;
mod seeds;

/// What a call says, or why it cannot be done.
type Said = Result<String, String>;

const NO_MEMORY: &str = "The browser has no more memory for this page.";

#[derive(Default)]
struct Page {
    room: Vec<u8>,
    said: String,
    hashes: hashes::Hashes,
    keys: Option<keys::Keys>,
    picture: Option<avalanche::Picture>,
}

thread_local! {
    static PAGE: RefCell<Page> = RefCell::default();
}

fn answer(call: impl FnOnce(&mut Page) -> Said) -> bool {
    PAGE.with_borrow_mut(|page| {
        let said = call(page);
        let well = said.is_ok();
        page.said = said.unwrap_or_else(|sentence| sentence);
        well
    })
}

/// What was made before, or a sentence that it was not.
fn begun<T>(made: &mut Option<T>) -> Result<&mut T, String> {
    made.as_mut().ok_or_else(|| "Nothing was begun.".to_string())
}

/// Makes room for so many bytes, and returns where it is: 0 where there is no memory.
#[no_mangle]
pub extern "C" fn room(length: usize) -> usize {
    PAGE.with_borrow_mut(|page| {
        page.room.clear();
        if page.room.try_reserve_exact(length).is_err() {
            return 0;
        }
        page.room.resize(length, 0);
        page.room.as_ptr() as usize
    })
}

/// Where the text is that the last call said.
#[no_mangle]
pub extern "C" fn said() -> usize {
    PAGE.with_borrow(|page| page.said.as_ptr() as usize)
}

#[no_mangle]
pub extern "C" fn said_length() -> usize {
    PAGE.with_borrow(|page| page.said.len())
}

/// Says the names of the one table.
#[no_mangle]
pub extern "C" fn names() -> bool {
    answer(|_| Ok(hashers_proved::hash_kinds::table::KINDS.map(|kind| kind.row().name).join("\n")))
}

/// Begins a text. In the room are four lines, each empty or a number: a seed, a second one, SipHash's key, and that of poly61. Says the
/// rows: a name, its bits, and under what it is computed.
#[no_mangle]
pub extern "C" fn text_begin() -> bool {
    answer(|page| {
        page.hashes = hashes::Hashes::under(&seeds::Seeds::read(&page.room)?);
        Ok(page.hashes.rows())
    })
}

/// Goes on over what is in the room. Where cuts show, it is cut into pieces of 4096 bytes, as `hashof` does: so each part but the last has
/// a multiple of that.
#[no_mangle]
pub extern "C" fn text_part() {
    PAGE.with_borrow_mut(|page| page.hashes.write(&page.room))
}

/// Says the hashes so far, one a row: in decimal and in hexadecimal.
#[no_mangle]
pub extern "C" fn text_end() -> bool {
    answer(|page| Ok(page.hashes.answers()))
}

/// Begins keys, which are kept under these two random numbers.
#[no_mangle]
pub extern "C" fn keys_begin(first: u64, second: u64) {
    PAGE.with_borrow_mut(|page| page.keys = Some(keys::Keys::under(first, second)))
}

/// Takes in the lines of the room; the last may go on in the next part.
#[no_mangle]
pub extern "C" fn keys_part() -> bool {
    answer(|page| begun(&mut page.keys)?.take(&page.room))
}

/// Ends the keys. In the room are the words of a call of `spread`, one a line. Says how many keys there are, and into how many buckets they
/// fall; then the names of the hashes to come.
#[no_mangle]
pub extern "C" fn keys_end() -> bool {
    answer(|page| begun(&mut page.keys)?.end(&page.room))
}

/// Measures how long the hash of that place among the names takes, once more: the least time counts.
#[no_mangle]
pub extern "C" fn keys_measure(place: usize) -> bool {
    answer(|page| begun(&mut page.keys)?.measure(place))
}

/// Says the row of the hash of that place among the names, and its histograms.
#[no_mangle]
pub extern "C" fn keys_row(place: usize) -> bool {
    answer(|page| begun(&mut page.keys)?.row(place))
}

/// Says the table as `spread` writes it. The last line, which may be empty, is the name that it recommends.
#[no_mangle]
pub extern "C" fn keys_table() -> bool {
    answer(|page| begun(&mut page.keys)?.table())
}

/// Begins the picture of the avalanche of a hash, whose name is in the room, at keys of so many bytes.
#[no_mangle]
pub extern "C" fn avalanche_begin(bytes: usize) -> bool {
    answer(|page| {
        let picture = page.picture.insert(avalanche::Picture::of(&page.room, bytes)?);
        Ok(picture.says())
    })
}

/// Goes on by so many keys. Says the width, the height, the keys so far, and the least, mean and greatest share in percent.
#[no_mangle]
pub extern "C" fn avalanche_part(keys: u32) -> bool {
    answer(|page| {
        let picture = begun(&mut page.picture)?;
        picture.go_on(keys)?;
        Ok(picture.says())
    })
}

/// Where the points of the picture are: four bytes each, red, green, blue and 255, in rows from the left.
#[no_mangle]
pub extern "C" fn avalanche_points() -> usize {
    PAGE.with_borrow_mut(|page| page.picture.as_mut().map_or(0, |picture| picture.points().as_ptr() as usize))
}

/// Compares the two texts in the room, of which the first has so many bytes. Says where they differ, and for each hash whether a law tells
/// them apart, by which sentence, and whether their hashes are equal.
#[no_mangle]
pub extern "C" fn texts_compare(first: usize) -> bool {
    answer(|page| {
        let (x, y) = page.room.split_at(first.min(page.room.len()));
        Ok(apart::compare(x, y))
    })
}
