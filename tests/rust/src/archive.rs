//! The product's four C calls. This is the only module with unsafe code.

extern "C" {
    fn planner_plan_sheet(
        sheet: *const u8,
        sheet_length: usize,
        page: *mut u8,
        page_length: usize,
        place: usize,
    ) -> u32;
    fn planner_write_refusal(line: u32, number: u8, page: *mut u8, page_length: usize, place: usize) -> u32;
    fn planner_refused_line(sheet: *const u8, sheet_length: usize) -> u32;
    fn planner_import(
        processors: u64,
        list: *const u8,
        list_length: usize,
        page: *mut u8,
        page_length: usize,
        place: usize,
    ) -> u32;
}

// An empty slice is lent as NULL: the header allows it, and the calls must not touch it.
fn lent(bytes: &[u8]) -> *const u8 {
    if bytes.is_empty() {
        std::ptr::null()
    } else {
        bytes.as_ptr()
    }
}

fn lent_page(page: &mut [u8]) -> *mut u8 {
    if page.is_empty() {
        std::ptr::null_mut()
    } else {
        page.as_mut_ptr()
    }
}

pub fn plan_sheet(sheet: &[u8], page: &mut [u8], place: usize) -> u32 {
    let length = page.len();
    // SAFETY: both pointers come from live slices with these lengths, and the borrows rule out an overlap.
    unsafe { planner_plan_sheet(lent(sheet), sheet.len(), lent_page(page), length, place) }
}

pub fn write_refusal(line: u32, number: u8, page: &mut [u8], place: usize) -> u32 {
    let length = page.len();
    // SAFETY: the pointer comes from a live slice with this length.
    unsafe { planner_write_refusal(line, number, lent_page(page), length, place) }
}

pub fn refused_line(sheet: &[u8]) -> u32 {
    // SAFETY: the pointer comes from a live slice with this length.
    unsafe { planner_refused_line(lent(sheet), sheet.len()) }
}

pub fn import(processors: u64, list: &[u8], page: &mut [u8], place: usize) -> u32 {
    let length = page.len();
    // SAFETY: both pointers come from live slices with these lengths, and the borrows rule out an overlap.
    unsafe { planner_import(processors, lent(list), list.len(), lent_page(page), length, place) }
}
