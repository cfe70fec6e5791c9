//! The library's functions, as host/opening.h declares them.

mod c {
    unsafe extern "C" {
        pub fn opening_read(frame: *const u8, size: usize, place: u64, left: u8, numbers: *mut u64, places: usize) -> u32;
        pub fn opening_start(buffer: *mut u8, size: usize) -> u32;
        pub fn opening_add_update(
            buffer: *mut u8,
            size: usize,
            offset: u32,
            symbol: *const u8,
            symbol_size: usize,
            auction: u8,
            reference: u64,
            buy: u32,
            sell: u32,
            indicative: u64,
            auction_only: u64,
            condition: u8,
            bid: u64,
            offer: u64,
        ) -> u32;
        pub fn opening_add_summary(
            buffer: *mut u8,
            size: usize,
            offset: u32,
            symbol: *const u8,
            symbol_size: usize,
            auction: u8,
            price: u64,
            contracts: u32,
        ) -> u32;
        pub fn opening_frame_size(buffer: *const u8, size: usize) -> u64;
        pub fn opening_width(bid: u64) -> u64;
    }
}

/// Where a slice begins; null where it is empty, as a C program may pass it.
#[inline(always)]
fn begin<T>(slice: &[T]) -> *const T {
    if slice.is_empty() { std::ptr::null() } else { slice.as_ptr() }
}

#[inline(always)]
fn begin_mut<T>(slice: &mut [T]) -> *mut T {
    if slice.is_empty() {
        std::ptr::null_mut()
    } else {
        slice.as_mut_ptr()
    }
}

#[inline(always)]
pub fn read(frame: &[u8], place: u64, left: u8, numbers: &mut [u64]) -> u32 {
    unsafe { c::opening_read(begin(frame), frame.len(), place, left, begin_mut(numbers), numbers.len()) }
}

#[inline(always)]
pub fn start(buffer: &mut [u8]) -> u32 {
    unsafe { c::opening_start(begin_mut(buffer), buffer.len()) }
}

#[inline(always)]
pub fn add_update(
    buffer: &mut [u8],
    offset: u32,
    symbol: &[u8],
    auction: u8,
    reference: u64,
    buy: u32,
    sell: u32,
    indicative: u64,
    auction_only: u64,
    condition: u8,
    bid: u64,
    offer: u64,
) -> u32 {
    unsafe {
        c::opening_add_update(
            begin_mut(buffer),
            buffer.len(),
            offset,
            begin(symbol),
            symbol.len(),
            auction,
            reference,
            buy,
            sell,
            indicative,
            auction_only,
            condition,
            bid,
            offer,
        )
    }
}

#[inline(always)]
pub fn add_summary(buffer: &mut [u8], offset: u32, symbol: &[u8], auction: u8, price: u64, contracts: u32) -> u32 {
    unsafe {
        c::opening_add_summary(
            begin_mut(buffer),
            buffer.len(),
            offset,
            begin(symbol),
            symbol.len(),
            auction,
            price,
            contracts,
        )
    }
}

#[inline(always)]
pub fn frame_size(buffer: &[u8]) -> u64 {
    unsafe { c::opening_frame_size(begin(buffer), buffer.len()) }
}

#[inline(always)]
pub fn width(bid: u64) -> u64 {
    unsafe { c::opening_width(bid) }
}
