//! The planner library, behind the same entries as the reference.

/// The C border, as in include/yolkgorge.h.
mod c {
    extern "C" {
        pub fn yolkgorge_plan(
            record: *const u8,
            record_len: usize,
            places: *mut u8,
            places_len: usize,
            sums: *mut u8,
            sums_len: usize,
            order: *mut u8,
            order_len: usize,
            work: *mut u8,
            work_len: usize,
        ) -> i64;
        pub fn yolkgorge_plan_fewest_payments(
            record: *const u8,
            record_len: usize,
            places: *mut u8,
            places_len: usize,
            sums: *mut u8,
            sums_len: usize,
            order: *mut u8,
            order_len: usize,
        ) -> i64;
        pub fn yolkgorge_plan_fewest_deliveries(
            record: *const u8,
            record_len: usize,
            places: *mut u8,
            places_len: usize,
            sums: *mut u8,
            sums_len: usize,
            order: *mut u8,
            order_len: usize,
        ) -> i64;
        pub fn yolkgorge_plan_fewest_moves(
            record: *const u8,
            record_len: usize,
            places: *mut u8,
            places_len: usize,
            sums: *mut u8,
            sums_len: usize,
            order: *mut u8,
            order_len: usize,
        ) -> i64;
        pub fn yolkgorge_check(
            record: *const u8,
            record_len: usize,
            count: usize,
            places: *const u8,
            places_len: usize,
            sums: *const u8,
            sums_len: usize,
            order: *const u8,
            order_len: usize,
        ) -> u32;
        pub fn yolkgorge_bounds(
            record: *const u8,
            record_len: usize,
            place: usize,
            order: *const u8,
            order_len: usize,
            bounds: *mut u8,
            bounds_len: usize,
        ) -> u32;
        pub fn yolkgorge_open(
            session: *mut u8,
            session_len: usize,
            record: *const u8,
            record_len: usize,
            count: usize,
            places: *const u8,
            places_len: usize,
            sums: *const u8,
            sums_len: usize,
            order: *const u8,
            order_len: usize,
        ) -> u32;
        pub fn yolkgorge_report(
            session: *mut u8,
            session_len: usize,
            count: usize,
            places: *const u8,
            places_len: usize,
            sums: *const u8,
            sums_len: usize,
            side: u32,
            number: u32,
        ) -> u32;
        pub fn yolkgorge_finished(session: *const u8, session_len: usize, count: usize) -> u32;
    }
}

pub fn plan(record: &[u8], places: &mut [u8], sums: &mut [u8], order: &mut [u8], work: &mut [u8]) -> i64 {
    // SAFETY: each pointer goes with the length of its slice, and slices that are written do not overlap others.
    unsafe {
        c::yolkgorge_plan(
            record.as_ptr(),
            record.len(),
            places.as_mut_ptr(),
            places.len(),
            sums.as_mut_ptr(),
            sums.len(),
            order.as_mut_ptr(),
            order.len(),
            work.as_mut_ptr(),
            work.len(),
        )
    }
}

pub fn plan_fewest_payments(record: &[u8], places: &mut [u8], sums: &mut [u8], order: &mut [u8]) -> i64 {
    sparing(c::yolkgorge_plan_fewest_payments, record, places, sums, order)
}

pub fn plan_fewest_deliveries(record: &[u8], places: &mut [u8], sums: &mut [u8], order: &mut [u8]) -> i64 {
    sparing(c::yolkgorge_plan_fewest_deliveries, record, places, sums, order)
}

pub fn plan_fewest_moves(record: &[u8], places: &mut [u8], sums: &mut [u8], order: &mut [u8]) -> i64 {
    sparing(c::yolkgorge_plan_fewest_moves, record, places, sums, order)
}

/// One of the three entries above.
type Sparing = unsafe extern "C" fn(*const u8, usize, *mut u8, usize, *mut u8, usize, *mut u8, usize) -> i64;

#[inline(always)]
fn sparing(entry: Sparing, record: &[u8], places: &mut [u8], sums: &mut [u8], order: &mut [u8]) -> i64 {
    // SAFETY: as above.
    unsafe {
        entry(
            record.as_ptr(),
            record.len(),
            places.as_mut_ptr(),
            places.len(),
            sums.as_mut_ptr(),
            sums.len(),
            order.as_mut_ptr(),
            order.len(),
        )
    }
}

pub fn check(record: &[u8], count: usize, places: &[u8], sums: &[u8], order: &[u8]) -> u32 {
    // SAFETY: as above.
    unsafe {
        c::yolkgorge_check(
            record.as_ptr(),
            record.len(),
            count,
            places.as_ptr(),
            places.len(),
            sums.as_ptr(),
            sums.len(),
            order.as_ptr(),
            order.len(),
        )
    }
}

pub fn bounds(record: &[u8], place: usize, order: &[u8], bounds: &mut [u8]) -> u32 {
    // SAFETY: as above.
    unsafe {
        c::yolkgorge_bounds(
            record.as_ptr(),
            record.len(),
            place,
            order.as_ptr(),
            order.len(),
            bounds.as_mut_ptr(),
            bounds.len(),
        )
    }
}

pub fn open(session: &mut [u8], record: &[u8], count: usize, places: &[u8], sums: &[u8], order: &[u8]) -> u32 {
    // SAFETY: as above.
    unsafe {
        c::yolkgorge_open(
            session.as_mut_ptr(),
            session.len(),
            record.as_ptr(),
            record.len(),
            count,
            places.as_ptr(),
            places.len(),
            sums.as_ptr(),
            sums.len(),
            order.as_ptr(),
            order.len(),
        )
    }
}

pub fn report(session: &mut [u8], count: usize, places: &[u8], sums: &[u8], side: u32, number: u32) -> u32 {
    // SAFETY: as above.
    unsafe {
        c::yolkgorge_report(
            session.as_mut_ptr(),
            session.len(),
            count,
            places.as_ptr(),
            places.len(),
            sums.as_ptr(),
            sums.len(),
            side,
            number,
        )
    }
}

pub fn finished(session: &[u8], count: usize) -> u32 {
    // SAFETY: as above.
    unsafe { c::yolkgorge_finished(session.as_ptr(), session.len(), count) }
}
