//! The calls of host/planner.h as they are: safe functions on lent slices, and answers laid out as in C. The one module
//! with `unsafe`. The functions of the crate's root are built on it; a host that lends its own buffers calls it.

/// What the reader hands back. Past its lines a group holds zeros; a refusal leaves all but its number and line zero.
#[repr(C)]
#[derive(Clone, Debug, PartialEq, Eq)]
pub struct SheetRead {
    /// 0, or the number of the refusal.
    pub refusal: u32,
    /// The line at fault, from 1; 0 where no line is at fault.
    pub line: u32,
    /// The count of S, W, C, X and O lines.
    pub lines: [u32; 5],
    /// The numbers of the S line.
    pub head: [u32; 5],
    /// The numbers of the W lines, four for each.
    pub waits: [u32; 256],
    /// The numbers of the C lines, five for each.
    pub corridors: [u32; 1280],
    /// The numbers of the X lines, three for each.
    pub closures: [u32; 768],
    /// The numbers of the O lines, three for each.
    pub occupancies: [u32; 768],
}

impl SheetRead {
    /// The answer with this number and line, and zero for all else.
    pub fn refused(refusal: u32, line: u32) -> SheetRead {
        SheetRead {
            refusal,
            line,
            lines: [0; 5],
            head: [0; 5],
            waits: [0; 256],
            corridors: [0; 1280],
            closures: [0; 768],
            occupancies: [0; 768],
        }
    }

    /// The numbers of the lines of waiting costs.
    pub fn wait_numbers(&self) -> &[u32] {
        &self.waits[..4 * self.lines[1] as usize]
    }

    /// The numbers of the corridor lines.
    pub fn corridor_numbers(&self) -> &[u32] {
        &self.corridors[..5 * self.lines[2] as usize]
    }

    /// The numbers of the closure lines.
    pub fn closure_numbers(&self) -> &[u32] {
        &self.closures[..3 * self.lines[3] as usize]
    }

    /// The numbers of the occupancy lines.
    pub fn occupancy_numbers(&self) -> &[u32] {
        &self.occupancies[..3 * self.lines[4] as usize]
    }
}

/// What the writer hands back.
#[repr(C)]
#[derive(Clone, Debug, PartialEq, Eq)]
pub struct SheetWritten {
    /// 0, or the number of the refusal.
    pub refusal: u32,
    /// The line at fault, from 1; 0 where no line is at fault.
    pub line: u32,
    /// The count of bytes written.
    pub bytes: u32,
}

/// What a call of the front hands back.
#[repr(C)]
#[derive(Clone, Debug, PartialEq, Eq)]
pub struct FrontAnswer {
    /// 0, or the number of the refusal.
    pub refusal: u32,
    /// The line at fault, from 1; 0 where no line is at fault.
    pub line: u32,
    /// The count of front costs.
    pub costs: u64,
    /// The number of leading arrivals.
    pub arrivals: u64,
}

impl FrontAnswer {
    /// The answer with this number and line, and zero for all else.
    pub fn refused(refusal: u32, line: u32) -> FrontAnswer {
        FrontAnswer { refusal, line, costs: 0, arrivals: 0 }
    }
}

/// What a call of a journey hands back.
#[repr(C)]
#[derive(Clone, Debug, PartialEq, Eq)]
pub struct JourneyAnswer {
    /// 0, or the number of the refusal.
    pub refusal: u32,
    /// The line at fault, from 1; 0 where no line is at fault.
    pub line: u32,
    /// The cost of the journey.
    pub cost: [u32; 3],
    /// The step at which it arrives.
    pub arrival: u32,
}

impl JourneyAnswer {
    /// The answer with this number and line, and zero for all else.
    pub fn refused(refusal: u32, line: u32) -> JourneyAnswer {
        JourneyAnswer { refusal, line, cost: [0; 3], arrival: 0 }
    }
}

unsafe extern "C" {
    fn planner_read(sheet: *const u8, sheet_len: usize) -> SheetRead;

    fn planner_write(
        head: *const u32,
        head_len: usize,
        waits: *const u32,
        waits_len: usize,
        corridors: *const u32,
        corridors_len: usize,
        closures: *const u32,
        closures_len: usize,
        occupancies: *const u32,
        occupancies_len: usize,
        out: *mut u8,
        out_len: usize,
    ) -> SheetWritten;

    fn planner_front(
        sheet: *const u8,
        sheet_len: usize,
        arrivals: *mut u32,
        arrivals_len: usize,
        list: *mut u32,
        list_len: usize,
    ) -> FrontAnswer;

    fn planner_journey(
        sheet: *const u8,
        sheet_len: usize,
        number: u32,
        arrivals: *mut u32,
        arrivals_len: usize,
        path: *mut u32,
        path_len: usize,
    ) -> JourneyAnswer;

    fn planner_kind(byte: u8) -> u32;
}

/// Reads a sheet: its groups by value. Refuses with the sheet's refusals ([`Refusal::number`](crate::Refusal::number)).
pub fn read(sheet: &[u8]) -> SheetRead {
    // Safety: pointer and length are those of one slice, never null, and the call has no other precondition.
    unsafe { planner_read(sheet.as_ptr(), sheet.len()) }
}

/// Writes the sheet of five groups into the buffer, which is kept past the bytes written. Refuses with 2 to 7, 12, 15
/// and 16; the buffer is kept then.
pub fn write(
    head: &[u32],
    waits: &[u32],
    corridors: &[u32],
    closures: &[u32],
    occupancies: &[u32],
    out: &mut [u8],
) -> SheetWritten {
    // Safety: as for the reader; the buffer is borrowed for this call alone, so it overlaps nothing.
    unsafe {
        planner_write(
            head.as_ptr(),
            head.len(),
            waits.as_ptr(),
            waits.len(),
            corridors.as_ptr(),
            corridors.len(),
            closures.as_ptr(),
            closures.len(),
            occupancies.as_ptr(),
            occupancies.len(),
            out.as_mut_ptr(),
            out.len(),
        )
    }
}

/// Fills the arrivals table and the front list of a sheet, with zeros to their ends. Refuses with the sheet's refusals,
/// 8 and 9; the list is kept then, the table is kept with the sheet's and all zeros with 8 and 9.
pub fn front(sheet: &[u8], arrivals: &mut [u32], list: &mut [u32]) -> FrontAnswer {
    // Safety: as for the writer; the two buffers are borrowed apart.
    unsafe {
        planner_front(sheet.as_ptr(), sheet.len(), arrivals.as_mut_ptr(), arrivals.len(), list.as_mut_ptr(), list.len())
    }
}

/// Fills the arrivals table of a sheet and the path of the journey with a number in the front, from 0, with zeros to
/// their ends. Refuses with the sheet's refusals, 8, 10 and 11; the path is kept then, the table is kept with the
/// sheet's and all zeros with the rest.
pub fn journey(sheet: &[u8], number: u32, arrivals: &mut [u32], path: &mut [u32]) -> JourneyAnswer {
    // Safety: as for the front.
    unsafe {
        planner_journey(
            sheet.as_ptr(),
            sheet.len(),
            number,
            arrivals.as_mut_ptr(),
            arrivals.len(),
            path.as_mut_ptr(),
            path.len(),
        )
    }
}

/// The kind of a byte: digit 0, comma 1, line feed 2, letter 3, other 4.
pub fn kind(byte: u8) -> u32 {
    // Safety: the call takes a number and has no precondition.
    unsafe { planner_kind(byte) }
}

#[cfg(test)]
mod tests {
    use super::*;
    use std::mem::{align_of, offset_of, size_of};

    /// The numbers that tests/header.c holds the C structs against.
    #[test]
    fn the_structs_are_laid_out_as_in_c() {
        assert_eq!((size_of::<SheetRead>(), align_of::<SheetRead>()), (12336, 4));
        assert_eq!([offset_of!(SheetRead, refusal), offset_of!(SheetRead, line)], [0, 4]);
        assert_eq!([offset_of!(SheetRead, lines), offset_of!(SheetRead, head)], [8, 28]);
        assert_eq!([offset_of!(SheetRead, waits), offset_of!(SheetRead, corridors)], [48, 1072]);
        assert_eq!([offset_of!(SheetRead, closures), offset_of!(SheetRead, occupancies)], [6192, 9264]);

        assert_eq!((size_of::<SheetWritten>(), align_of::<SheetWritten>()), (12, 4));
        assert_eq!([offset_of!(SheetWritten, refusal), offset_of!(SheetWritten, line)], [0, 4]);
        assert_eq!(offset_of!(SheetWritten, bytes), 8);

        assert_eq!((size_of::<FrontAnswer>(), align_of::<FrontAnswer>()), (24, 8));
        assert_eq!([offset_of!(FrontAnswer, refusal), offset_of!(FrontAnswer, line)], [0, 4]);
        assert_eq!([offset_of!(FrontAnswer, costs), offset_of!(FrontAnswer, arrivals)], [8, 16]);

        assert_eq!((size_of::<JourneyAnswer>(), align_of::<JourneyAnswer>()), (24, 4));
        assert_eq!([offset_of!(JourneyAnswer, refusal), offset_of!(JourneyAnswer, line)], [0, 4]);
        assert_eq!([offset_of!(JourneyAnswer, cost), offset_of!(JourneyAnswer, arrival)], [8, 20]);
    }
}
