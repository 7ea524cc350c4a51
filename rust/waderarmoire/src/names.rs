//! The names of sites.

unsafe extern "C" {
    fn waderarmoire_name(sheet: *const u8, sheet_len: usize, site: usize) -> u64;
}

/// The name of a site, looked up by its number: the bytes of its own line, that very part of `sheet`. A number without a
/// site, or any number over a sheet that is refused, gets an empty part.
///
/// Sites are numbered from 1 by their lines. Every call reads the sheet: to name many sites, keep the names.
#[must_use]
pub fn name(sheet: &[u8], site: usize) -> &[u8] {
    // SAFETY: the pointer and the length are those of a slice, and the pointer of an empty slice is not null either.
    // The library reads the sheet within this length, and keeps nothing.
    let place = unsafe { waderarmoire_name(sheet.as_ptr(), sheet.len(), site) };
    let from = (place >> 20) as usize;
    &sheet[from..from + (place & 0xf_ffff) as usize]
}
