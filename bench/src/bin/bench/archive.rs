//! The product's calls for C. This is the only module with unsafe code.

extern "C" {
    fn planner_plan_sheet(
        sheet: *const u8,
        sheet_length: usize,
        page: *mut u8,
        page_length: usize,
        place: usize,
    ) -> u32;
    fn planner_import(
        processors: u64,
        list: *const u8,
        list_length: usize,
        page: *mut u8,
        page_length: usize,
        place: usize,
    ) -> u32;
}

pub fn plan_sheet(sheet: &[u8], page: &mut [u8], place: usize) -> u32 {
    // SAFETY: both pointers come from live slices with these lengths, and the borrows rule out an overlap.
    unsafe { planner_plan_sheet(sheet.as_ptr(), sheet.len(), page.as_mut_ptr(), page.len(), place) }
}

pub fn import(processors: u64, list: &[u8], page: &mut [u8], place: usize) -> u32 {
    // SAFETY: both pointers come from live slices with these lengths, and the borrows rule out an overlap.
    unsafe { planner_import(processors, list.as_ptr(), list.len(), page.as_mut_ptr(), page.len(), place) }
}
