//! The whole-job calls, of the linked library and of the independent
//! implementation. Built without the library (`RIVETYELLOW_LIB` unset) there
//! are only the latter.

use crate::answer::Answer;
use crate::independent;

/// One implementation's calls.
#[allow(clippy::type_complexity)]
pub struct Calls {
    pub name: &'static str,
    pub read_old: fn(&[u8]) -> Answer,
    pub read_new: fn(&[u8], &[u8]) -> Answer,
    pub read_tests: fn(&[u8], &[u8], &[u8]) -> Answer,
    pub sheet: fn(&[u8], &[u8], &[u8], &mut [u8]) -> Answer,
    pub record: fn(&[u8], &[u8], &[u8], usize, &mut [u8]) -> Answer,
    pub check: fn(&[u8], &[u8], &[u8], &[u8]) -> Answer,
    pub program: fn(&[u8], &[u8], &[u8], usize, &mut [u8]) -> Answer,
    pub probes: fn(&[u8], &[u8], &[u8], &mut [u8]) -> Answer,
}

/// The independent implementation.
pub const INDEPENDENT: Calls = Calls {
    name: "independent",
    read_old: independent::read_old,
    read_new: independent::read_new,
    read_tests: independent::read_tests,
    sheet: independent::sheet,
    record: independent::record,
    check: independent::check,
    program: independent::program,
    probes: independent::probes,
};

/// The linked library, if it was built in.
#[cfg(linked)]
pub const LINKED: Option<Calls> = Some(Calls {
    name: "linked",
    read_old: linked::read_old,
    read_new: linked::read_new,
    read_tests: linked::read_tests,
    sheet: linked::sheet,
    record: linked::record,
    check: linked::check,
    program: linked::program,
    probes: linked::probes,
});
#[cfg(not(linked))]
pub const LINKED: Option<Calls> = None;

#[cfg(linked)]
mod linked {
    use crate::answer::Answer;

    /// A slice as the calls take it: pointer and length. Of an empty slice
    /// the pointer is not null, and nothing is read or written there.
    macro_rules! lent {
        ($slice:expr) => {
            ($slice.as_ptr(), $slice.len())
        };
    }

    extern "C" {
        fn ry_read_old(old: *const u8, old_len: usize) -> u64;
        fn ry_read_new(old: *const u8, old_len: usize, new: *const u8, new_len: usize) -> u64;
        fn ry_read_tests(
            old: *const u8,
            old_len: usize,
            new: *const u8,
            new_len: usize,
            tests: *const u8,
            tests_len: usize,
        ) -> u64;
        fn ry_sheet(
            old: *const u8,
            old_len: usize,
            new: *const u8,
            new_len: usize,
            tests: *const u8,
            tests_len: usize,
            out: *mut u8,
            out_len: usize,
        ) -> u64;
        fn ry_record(
            old: *const u8,
            old_len: usize,
            new: *const u8,
            new_len: usize,
            tests: *const u8,
            tests_len: usize,
            test: usize,
            out: *mut u8,
            out_len: usize,
        ) -> u64;
        fn ry_check(
            old: *const u8,
            old_len: usize,
            new: *const u8,
            new_len: usize,
            tests: *const u8,
            tests_len: usize,
            sheet: *const u8,
            sheet_len: usize,
        ) -> u64;
        fn ry_program(
            old: *const u8,
            old_len: usize,
            new: *const u8,
            new_len: usize,
            tests: *const u8,
            tests_len: usize,
            side: usize,
            out: *mut u8,
            out_len: usize,
        ) -> u64;
        fn ry_probes(
            old: *const u8,
            old_len: usize,
            new: *const u8,
            new_len: usize,
            tests: *const u8,
            tests_len: usize,
            out: *mut u8,
            out_len: usize,
        ) -> u64;
    }

    // Each call reads only the lent texts, writes only the lent output and
    // keeps no pointer, which is what makes these wrappers safe.

    /// Reads the old program.
    pub fn read_old(old: &[u8]) -> Answer {
        let (old, old_len) = lent!(old);
        Answer::unpacked(unsafe { ry_read_old(old, old_len) })
    }

    /// Reads the old, then the new program.
    pub fn read_new(old: &[u8], new: &[u8]) -> Answer {
        let (old, old_len) = lent!(old);
        let (new, new_len) = lent!(new);
        Answer::unpacked(unsafe { ry_read_new(old, old_len, new, new_len) })
    }

    /// Reads both programs, then the tests.
    pub fn read_tests(old: &[u8], new: &[u8], tests: &[u8]) -> Answer {
        let (old, old_len) = lent!(old);
        let (new, new_len) = lent!(new);
        let (tests, tests_len) = lent!(tests);
        Answer::unpacked(unsafe { ry_read_tests(old, old_len, new, new_len, tests, tests_len) })
    }

    /// Writes the sheet.
    pub fn sheet(old: &[u8], new: &[u8], tests: &[u8], out: &mut [u8]) -> Answer {
        let (old, old_len) = lent!(old);
        let (new, new_len) = lent!(new);
        let (tests, tests_len) = lent!(tests);
        let (out, out_len) = (out.as_mut_ptr(), out.len());
        Answer::unpacked(unsafe {
            ry_sheet(old, old_len, new, new_len, tests, tests_len, out, out_len)
        })
    }

    /// Writes one test's record line.
    pub fn record(old: &[u8], new: &[u8], tests: &[u8], test: usize, out: &mut [u8]) -> Answer {
        let (old, old_len) = lent!(old);
        let (new, new_len) = lent!(new);
        let (tests, tests_len) = lent!(tests);
        let (out, out_len) = (out.as_mut_ptr(), out.len());
        Answer::unpacked(unsafe {
            ry_record(
                old, old_len, new, new_len, tests, tests_len, test, out, out_len,
            )
        })
    }

    /// Checks a sheet.
    pub fn check(old: &[u8], new: &[u8], tests: &[u8], sheet: &[u8]) -> Answer {
        let (old, old_len) = lent!(old);
        let (new, new_len) = lent!(new);
        let (tests, tests_len) = lent!(tests);
        let (sheet, sheet_len) = lent!(sheet);
        Answer::unpacked(unsafe {
            ry_check(
                old, old_len, new, new_len, tests, tests_len, sheet, sheet_len,
            )
        })
    }

    /// Writes the program of one side back.
    pub fn program(old: &[u8], new: &[u8], tests: &[u8], side: usize, out: &mut [u8]) -> Answer {
        let (old, old_len) = lent!(old);
        let (new, new_len) = lent!(new);
        let (tests, tests_len) = lent!(tests);
        let (out, out_len) = (out.as_mut_ptr(), out.len());
        Answer::unpacked(unsafe {
            ry_program(
                old, old_len, new, new_len, tests, tests_len, side, out, out_len,
            )
        })
    }

    /// Writes a line for each new edge that needs a probe.
    pub fn probes(old: &[u8], new: &[u8], tests: &[u8], out: &mut [u8]) -> Answer {
        let (old, old_len) = lent!(old);
        let (new, new_len) = lent!(new);
        let (tests, tests_len) = lent!(tests);
        let (out, out_len) = (out.as_mut_ptr(), out.len());
        Answer::unpacked(unsafe {
            ry_probes(old, old_len, new, new_len, tests, tests_len, out, out_len)
        })
    }
}
