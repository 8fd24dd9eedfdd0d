//! Slices to lend, with a guard zone on either side.

use std::hint::black_box;

const ZONE: usize = 16;

pub trait Guard: Copy + PartialEq {
    const GUARD: Self;
}

impl Guard for i32 {
    const GUARD: i32 = 0x5A5A_5A5A;
}

impl Guard for u32 {
    const GUARD: u32 = 0x5A5A_5A5A;
}

impl Guard for i64 {
    const GUARD: i64 = 0x5A5A_5A5A_5A5A_5A5A;
}

impl Guard for u8 {
    const GUARD: u8 = 0x5A;
}

pub struct Guarded<T>(Vec<T>);

impl<T: Guard> Guarded<T> {
    pub fn new(items: &[T]) -> Guarded<T> {
        let zone = [T::GUARD; ZONE];
        Guarded([&zone, items, &zone].concat())
    }

    pub fn lend(&mut self) -> &mut [T] {
        let end = self.0.len() - ZONE;
        &mut self.0[ZONE..end]
    }

    /// The items as the call left them; traps where a guard zone was written.
    pub fn back(&mut self) -> &[T] {
        // The compiler may not assume that a slice lent for reading is as it was.
        black_box(&mut self.0);
        let (zone, rest) = self.0.split_at(ZONE);
        let (items, other) = rest.split_at(rest.len() - ZONE);
        assert!(zone.iter().chain(other).all(|&cell| cell == T::GUARD), "a guard zone was written");
        items
    }
}
