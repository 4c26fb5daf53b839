//! The planner's C call. This is the only module with unsafe code.

extern "C" {
    fn planner_plan_sheet(
        sheet: *const u8,
        sheet_length: usize,
        page: *mut u8,
        page_length: usize,
        place: usize,
    ) -> u32;
}

/// Has the plan of a sheet written at the start of the page. The reply is 0, or the number of a refusal.
pub fn plan_sheet(sheet: &[u8], page: &mut [u8]) -> u32 {
    // SAFETY: both pointers are those of live slices with these lengths, and the page is borrowed for itself alone.
    unsafe { planner_plan_sheet(sheet.as_ptr(), sheet.len(), page.as_mut_ptr(), page.len(), 0) }
}
