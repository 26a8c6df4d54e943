//! The library's nine calls, over slices. An empty slice crosses as NULL, as the header allows.

#[cfg(test)]
mod header;
#[cfg(test)]
mod stack;

use std::ptr;

/// A card: the eight numbers, the mark, the height and the grade.
pub type Card = [i32; 11];

extern "C" {
    fn pippinterm_check_card(card: *const i32) -> u32;
    fn pippinterm_fill_table(
        card: *const i32,
        table: *mut i32,
        table_length: usize,
        count: *mut u32,
    ) -> u32;
    fn pippinterm_walk_table(
        card: *const i32,
        table: *mut i32,
        table_length: usize,
        count: *mut u32,
        fresh: *mut u32,
    ) -> u32;
    fn pippinterm_check_minsk_card(card: *const i32) -> u32;
    fn pippinterm_fill_minsk_table(
        card: *const i32,
        table: *mut i32,
        table_length: usize,
        count: *mut u32,
    ) -> u32;
    fn pippinterm_fill_day(
        cards: *const Card,
        cards_length: usize,
        table: *mut i32,
        table_length: usize,
        replies: *mut u32,
        replies_length: usize,
        count: *mut u32,
    ) -> u32;
    fn pippinterm_least_length(radius: u32, looked: *mut u32) -> u32;
    fn pippinterm_read_book(
        text: *const u8,
        text_length: usize,
        list: *mut i32,
        list_length: usize,
        count: *mut u32,
        line: *mut u32,
    ) -> u32;
    fn pippinterm_write_book(
        list: *const i32,
        list_length: usize,
        names: *const u8,
        names_length: usize,
        buffer: *mut u8,
        buffer_length: usize,
        count: *mut u32,
    ) -> u32;
}

/// Where a slice that is read begins.
fn start<T>(slice: &[T]) -> *const T {
    if slice.is_empty() {
        ptr::null()
    } else {
        slice.as_ptr()
    }
}

/// Where a slice that is written begins.
fn start_mut<T>(slice: &mut [T]) -> *mut T {
    if slice.is_empty() {
        ptr::null_mut()
    } else {
        slice.as_mut_ptr()
    }
}

/// The first of the reasons 1 to 6, 8 to 10, 34 and 35 met, or 0.
pub fn check_card(card: &Card) -> u32 {
    // SAFETY: the call reads the eleven numbers lent here.
    unsafe { pippinterm_check_card(card.as_ptr()) }
}

/// Fills the table, sets the count of rows and gives the reply number.
pub fn fill_table(card: &Card, table: &mut [i32], count: &mut u32) -> u32 {
    let (length, table) = (table.len(), start_mut(table));
    // SAFETY: every place lent here is its slice's own, with its true length.
    unsafe { pippinterm_fill_table(card.as_ptr(), table, length, count) }
}

/// The same table, each row made from the one before; sets the count of rows and how many were worked afresh, and gives the
/// reply number.
pub fn walk_table(card: &Card, table: &mut [i32], count: &mut u32, fresh: &mut u32) -> u32 {
    let (length, table) = (table.len(), start_mut(table));
    // SAFETY: every place lent here is its slice's own, with its true length.
    unsafe { pippinterm_walk_table(card.as_ptr(), table, length, count, fresh) }
}

/// The first of the reasons 1 to 6, 36 to 38, 8 to 10, 34 and 35 met by the handbook's method, or 0.
pub fn check_minsk_card(card: &Card) -> u32 {
    // SAFETY: the call reads the eleven numbers lent here.
    unsafe { pippinterm_check_minsk_card(card.as_ptr()) }
}

/// Fills the table with the handbook's rows, sets their count and gives the reply number.
pub fn fill_minsk_table(card: &Card, table: &mut [i32], count: &mut u32) -> u32 {
    let (length, table) = (table.len(), start_mut(table));
    // SAFETY: every place lent here is its slice's own, with its true length.
    unsafe { pippinterm_fill_minsk_table(card.as_ptr(), table, length, count) }
}

/// Fills the table and the reply list, sets the count of cards and gives the reply number.
pub fn fill_day(cards: &[Card], table: &mut [i32], replies: &mut [u32], count: &mut u32) -> u32 {
    let (cards_length, cards) = (cards.len(), start(cards));
    let (length, table) = (table.len(), start_mut(table));
    let (replies_length, replies) = (replies.len(), start_mut(replies));
    // SAFETY: every place lent here is its slice's own, with its true length.
    unsafe {
        pippinterm_fill_day(
            cards,
            cards_length,
            table,
            length,
            replies,
            replies_length,
            count,
        )
    }
}

/// Sets how many listed radii were looked at, and gives the least length of the clothoid in metres.
pub fn least_length(radius: u32, looked: &mut u32) -> u32 {
    // SAFETY: the call writes the one number lent here.
    unsafe { pippinterm_least_length(radius, looked) }
}

/// Fills the list, sets the count of curves and the line, and gives the reply number.
pub fn read_book(text: &[u8], list: &mut [i32], count: &mut u32, line: &mut u32) -> u32 {
    let (text_length, text) = (text.len(), start(text));
    let (list_length, list) = (list.len(), start_mut(list));
    // SAFETY: every place lent here is its slice's own, with its true length.
    unsafe { pippinterm_read_book(text, text_length, list, list_length, count, line) }
}

/// Writes the book into the buffer, sets the count of its bytes and gives the reply number.
pub fn write_book(list: &[i32], names: &[u8], buffer: &mut [u8], count: &mut u32) -> u32 {
    let (list_length, list) = (list.len(), start(list));
    let (names_length, names) = (names.len(), start(names));
    let (length, buffer) = (buffer.len(), start_mut(buffer));
    // SAFETY: every place lent here is its slice's own, with its true length.
    unsafe {
        pippinterm_write_book(
            list,
            list_length,
            names,
            names_length,
            buffer,
            length,
            count,
        )
    }
}
