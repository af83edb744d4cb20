//! The calls of the C library, on slices. A slice passes as a pointer and then a length.

extern "C" {
    fn warblehay_check_site(site: *const u8, site_length: usize) -> u32;

    fn warblehay_state_length(site: *const u8, site_length: usize) -> usize;

    fn warblehay_fresh_state(
        site: *const u8,
        site_length: usize,
        state: *mut u8,
        state_length: usize,
    ) -> u32;

    fn warblehay_check_state(
        site: *const u8,
        site_length: usize,
        state: *const u8,
        state_length: usize,
    ) -> u32;

    fn warblehay_run_journal(
        site: *const u8,
        site_length: usize,
        state: *mut u8,
        state_length: usize,
        journal: *const u8,
        journal_length: usize,
        answers: *mut u8,
        answers_length: usize,
    ) -> u32;

    fn warblehay_shorten_state(
        site: *const u8,
        site_length: usize,
        longer: *const u8,
        longer_length: usize,
        state: *mut u8,
        state_length: usize,
    ) -> u32;

    fn warblehay_lengthen_state(
        site: *const u8,
        site_length: usize,
        state: *const u8,
        state_length: usize,
        longer: *mut u8,
        longer_length: usize,
    ) -> u32;

    fn warblehay_place_of_zone(
        site: *const u8,
        site_length: usize,
        zone: u32,
        state_offset: *mut usize,
    ) -> usize;

    fn warblehay_place_of_point(
        site: *const u8,
        site_length: usize,
        point: u32,
        state_offset: *mut usize,
    ) -> usize;

    fn warblehay_place_of_credential(
        site: *const u8,
        site_length: usize,
        credential: u32,
        state_offset: *mut usize,
    ) -> usize;

    fn warblehay_read_wiegand26(number: u64, count: u32, format: *mut u8, value: *mut u8) -> u32;

    fn warblehay_write_wiegand26(facility: u8, card: u16) -> u32;
}

pub fn check_site(site: &[u8]) -> u32 {
    // SAFETY: the call asks for nothing but a live slice.
    unsafe { warblehay_check_site(site.as_ptr(), site.len()) }
}

pub fn state_length(site: &[u8]) -> usize {
    // SAFETY: the call asks for nothing but a live slice.
    unsafe { warblehay_state_length(site.as_ptr(), site.len()) }
}

pub fn fresh_state(site: &[u8], state: &mut [u8]) -> u32 {
    // SAFETY: the call asks for nothing but live slices, the lent one apart from the other.
    unsafe { warblehay_fresh_state(site.as_ptr(), site.len(), state.as_mut_ptr(), state.len()) }
}

pub fn check_state(site: &[u8], state: &[u8]) -> u32 {
    // SAFETY: the call asks for nothing but live slices.
    unsafe { warblehay_check_state(site.as_ptr(), site.len(), state.as_ptr(), state.len()) }
}

pub fn run_journal(site: &[u8], state: &mut [u8], journal: &[u8], answers: &mut [u8]) -> u32 {
    // SAFETY: the call asks for nothing but live slices, the lent ones apart from all others.
    unsafe {
        warblehay_run_journal(
            site.as_ptr(),
            site.len(),
            state.as_mut_ptr(),
            state.len(),
            journal.as_ptr(),
            journal.len(),
            answers.as_mut_ptr(),
            answers.len(),
        )
    }
}

pub fn shorten_state(site: &[u8], longer: &[u8], state: &mut [u8]) -> u32 {
    // SAFETY: the call asks for nothing but live slices, the lent one apart from all others.
    unsafe {
        warblehay_shorten_state(
            site.as_ptr(),
            site.len(),
            longer.as_ptr(),
            longer.len(),
            state.as_mut_ptr(),
            state.len(),
        )
    }
}

pub fn lengthen_state(site: &[u8], state: &[u8], longer: &mut [u8]) -> u32 {
    // SAFETY: the call asks for nothing but live slices, the lent one apart from all others.
    unsafe {
        warblehay_lengthen_state(
            site.as_ptr(),
            site.len(),
            state.as_ptr(),
            state.len(),
            longer.as_mut_ptr(),
            longer.len(),
        )
    }
}

/// The place in the site and the offset in the state.
pub fn place_of_zone(site: &[u8], zone: u32) -> (usize, usize) {
    let mut offset = 0;
    // SAFETY: the call asks for nothing but a live slice and a live number apart from it.
    let place = unsafe { warblehay_place_of_zone(site.as_ptr(), site.len(), zone, &mut offset) };
    (place, offset)
}

/// As `place_of_zone`.
pub fn place_of_point(site: &[u8], point: u32) -> (usize, usize) {
    let mut offset = 0;
    // SAFETY: the call asks for nothing but a live slice and a live number apart from it.
    let place = unsafe { warblehay_place_of_point(site.as_ptr(), site.len(), point, &mut offset) };
    (place, offset)
}

/// As `place_of_zone`.
pub fn place_of_credential(site: &[u8], credential: u32) -> (usize, usize) {
    let mut offset = 0;
    // SAFETY: the call asks for nothing but a live slice and a live number apart from it.
    let place = unsafe {
        warblehay_place_of_credential(site.as_ptr(), site.len(), credential, &mut offset)
    };
    (place, offset)
}

pub fn read_wiegand26(number: u64, count: u32, format: &mut u8, value: &mut [u8; 8]) -> u32 {
    // SAFETY: the call asks for nothing but a live byte and eight live bytes, apart from each other.
    unsafe { warblehay_read_wiegand26(number, count, format, value.as_mut_ptr()) }
}

pub fn write_wiegand26(facility: u8, card: u16) -> u32 {
    // SAFETY: the call takes numbers alone.
    unsafe { warblehay_write_wiegand26(facility, card) }
}
