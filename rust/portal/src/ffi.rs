//! The entry points of `libportal.a`, declared in this one place, each behind a safe function of the same meaning.
//!
//! The numbers they answer are decoded by the rest of this package; a caller has no need of them. A slice passes as
//! two arguments, pointer and number of bytes. (A Rust slice in `extern "C"` would be one aggregate, and go wrong.)

/// The room that a gap's seven strings need (RULES 6).
pub const VALUES_BYTES: usize = 3_584;

#[link(name = "portal", kind = "static")]
extern "C" {
    fn stamenhum_judge(
        table: *const u8,
        table_length: usize,
        principal: *const u8,
        principal_length: usize,
        action: *const u8,
        action_length: usize,
        resource: *const u8,
        resource_length: usize,
        present: u32,
        vpc: *const u8,
        vpc_length: usize,
        prefix: *const u8,
        prefix_length: usize,
        vpce: *const u8,
        vpce_length: usize,
        referer: *const u8,
        referer_length: usize,
        address: u32,
    ) -> u64;

    fn stamenhum_gaps(first: *const u8, first_length: usize, second: *const u8, second_length: usize) -> u64;

    fn stamenhum_gap(
        first: *const u8,
        first_length: usize,
        second: *const u8,
        second_length: usize,
        k: u64,
        values: *mut u8,
        values_length: usize,
    ) -> u64;

    fn stamenhum_read_json(json: *const u8, json_length: usize, table: *mut u8, table_length: usize) -> u64;
}

/// A request as the entry point takes it: three strings, the keys by code, and which of the keys are there.
#[derive(Clone, Copy, Debug, Default, PartialEq, Eq)]
pub struct RawRequest<'a> {
    pub principal: &'a [u8],
    pub action: &'a [u8],
    pub resource: &'a [u8],
    /// Bit i says that the key with code i is there; higher bits are not looked at.
    pub present: u32,
    /// By key code 0 to 3; those of an absent key are not looked at.
    pub keys: [&'a [u8]; 4],
    /// Not looked at when key 4 is absent.
    pub address: u32,
}

/// The number that judges one request by one table.
pub fn judge(table: &[u8], request: &RawRequest) -> u64 {
    let [vpc, prefix, vpce, referer] = request.keys;
    // SAFETY: each pointer is that of a slice of the length beside it, borrowed for the call. The library reads no
    // byte outside these slices, writes nothing and keeps no pointer.
    unsafe {
        stamenhum_judge(
            table.as_ptr(),
            table.len(),
            request.principal.as_ptr(),
            request.principal.len(),
            request.action.as_ptr(),
            request.action.len(),
            request.resource.as_ptr(),
            request.resource.len(),
            request.present,
            vpc.as_ptr(),
            vpc.len(),
            prefix.as_ptr(),
            prefix.len(),
            vpce.as_ptr(),
            vpce.len(),
            referer.as_ptr(),
            referer.len(),
            request.address,
        )
    }
}

/// The number of gaps between two tables, or the number of a refusal.
pub fn gaps(first: &[u8], second: &[u8]) -> u64 {
    // SAFETY: as for `judge`.
    unsafe { stamenhum_gaps(first.as_ptr(), first.len(), second.as_ptr(), second.len()) }
}

/// The number that answers the question for gap k; an answered question lays its strings in `values`.
pub fn gap(first: &[u8], second: &[u8], k: u64, values: &mut [u8]) -> u64 {
    // SAFETY: as for `judge`; `values` is borrowed alone, and the library writes no byte outside it.
    unsafe {
        stamenhum_gap(
            first.as_ptr(),
            first.len(),
            second.as_ptr(),
            second.len(),
            k,
            values.as_mut_ptr(),
            values.len(),
        )
    }
}

/// The number of bytes of a policy's table, which then stand at the beginning of `table`, or the number of a refusal,
/// which leaves `table` as it was: number * 2^56 + place.
pub fn read_json(json: &[u8], table: &mut [u8]) -> u64 {
    // SAFETY: as for `judge`; `table` is borrowed alone, and the library writes no byte outside it.
    unsafe { stamenhum_read_json(json.as_ptr(), json.len(), table.as_mut_ptr(), table.len()) }
}
