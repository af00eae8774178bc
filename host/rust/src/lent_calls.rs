//! The calls of the lent job, of the linked library and of the independent
//! implementation.

use crate::answer::Answer;
use crate::independent::lent_job;
use crate::records::{Job, Node, Read, Request, Version};

/// One implementation's calls. Where a call takes several slices to write,
/// they are, in this order, nodes and links or tests and rows, the scratch,
/// the output.
#[allow(clippy::type_complexity)]
pub struct LentCalls {
    pub reset: fn(&mut Job),
    pub read_old: fn(&mut Job, &[u8], &mut [Node], &mut [usize], &mut [usize]) -> Answer,
    pub read_new: fn(&mut Job, Version, &[u8], &mut [Node], &mut [usize], &mut [usize]) -> Answer,
    pub read_tests:
        fn(&mut Job, Version, Version, &[u8], &mut [usize], &mut [u64], &mut [usize]) -> Answer,
    pub call: fn(&mut Job, Read, Request, &mut [usize], &mut [u8]) -> Answer,
    /// By side and node; gives where the label stands and its length, packed.
    pub label: fn(&mut Job, Read, usize, usize, &mut [usize]) -> u64,
}

/// The independent implementation.
pub const INDEPENDENT: LentCalls = LentCalls {
    reset: lent_job::reset,
    read_old: lent_job::read_old,
    read_new: lent_job::read_new,
    read_tests: lent_job::read_tests,
    call: lent_job::call,
    label: lent_job::label,
};

/// The linked library, if it was built in.
#[cfg(linked)]
pub const LINKED: Option<LentCalls> = Some(LentCalls {
    reset: linked::reset,
    read_old: linked::read_old,
    read_new: linked::read_new,
    read_tests: linked::read_tests,
    call: linked::call,
    label: linked::label,
});
#[cfg(not(linked))]
pub const LINKED: Option<LentCalls> = None;

#[cfg(linked)]
mod linked {
    use crate::answer::Answer;
    use crate::records::{Job, Node, Read, Request, Version};

    extern "C" {
        fn ry_job_reset(job: *mut Job);
        fn ry_job_read_old(
            job: *mut Job,
            old: *const u8,
            old_len: usize,
            nodes: *mut Node,
            nodes_len: usize,
            links: *mut usize,
            links_len: usize,
            scratch: *mut usize,
            scratch_len: usize,
        ) -> u64;
        fn ry_job_read_new(
            job: *mut Job,
            old: *const u8,
            old_len: usize,
            old_nodes: *const Node,
            old_nodes_len: usize,
            old_links: *const usize,
            old_links_len: usize,
            new: *const u8,
            new_len: usize,
            nodes: *mut Node,
            nodes_len: usize,
            links: *mut usize,
            links_len: usize,
            scratch: *mut usize,
            scratch_len: usize,
        ) -> u64;
        fn ry_job_read_tests(
            job: *mut Job,
            old: *const u8,
            old_len: usize,
            old_nodes: *const Node,
            old_nodes_len: usize,
            old_links: *const usize,
            old_links_len: usize,
            new: *const u8,
            new_len: usize,
            new_nodes: *const Node,
            new_nodes_len: usize,
            new_links: *const usize,
            new_links_len: usize,
            text: *const u8,
            text_len: usize,
            tests: *mut usize,
            tests_len: usize,
            rows: *mut u64,
            rows_len: usize,
            scratch: *mut usize,
            scratch_len: usize,
        ) -> u64;
        fn ry_job_call(
            job: *mut Job,
            old: *const u8,
            old_len: usize,
            old_nodes: *const Node,
            old_nodes_len: usize,
            old_links: *const usize,
            old_links_len: usize,
            new: *const u8,
            new_len: usize,
            new_nodes: *const Node,
            new_nodes_len: usize,
            new_links: *const usize,
            new_links_len: usize,
            text: *const u8,
            text_len: usize,
            tests: *const usize,
            tests_len: usize,
            rows: *const u64,
            rows_len: usize,
            request: usize,
            a: usize,
            b: usize,
            input: *const u8,
            input_len: usize,
            scratch: *mut usize,
            scratch_len: usize,
            out: *mut u8,
            out_len: usize,
        ) -> u64;
        fn ry_job_label(
            job: *mut Job,
            old: *const u8,
            old_len: usize,
            old_nodes: *const Node,
            old_nodes_len: usize,
            old_links: *const usize,
            old_links_len: usize,
            new: *const u8,
            new_len: usize,
            new_nodes: *const Node,
            new_nodes_len: usize,
            new_links: *const usize,
            new_links_len: usize,
            text: *const u8,
            text_len: usize,
            tests: *const usize,
            tests_len: usize,
            rows: *const u64,
            rows_len: usize,
            side: usize,
            node: usize,
            scratch: *mut usize,
            scratch_len: usize,
        ) -> u64;
    }

    // Each call reads and writes only what it is lent, and keeps no pointer;
    // the slices to write are borrowed apart from all others. That is what
    // makes these wrappers safe.

    /// Makes the job a fresh one.
    pub fn reset(job: &mut Job) {
        unsafe { ry_job_reset(job) }
    }

    /// Reads the old program.
    pub fn read_old(
        job: &mut Job,
        old: &[u8],
        nodes: &mut [Node],
        links: &mut [usize],
        scratch: &mut [usize],
    ) -> Answer {
        Answer::unpacked(unsafe {
            ry_job_read_old(
                job,
                old.as_ptr(),
                old.len(),
                nodes.as_mut_ptr(),
                nodes.len(),
                links.as_mut_ptr(),
                links.len(),
                scratch.as_mut_ptr(),
                scratch.len(),
            )
        })
    }

    /// Reads the new program.
    pub fn read_new(
        job: &mut Job,
        old: Version,
        new: &[u8],
        nodes: &mut [Node],
        links: &mut [usize],
        scratch: &mut [usize],
    ) -> Answer {
        Answer::unpacked(unsafe {
            ry_job_read_new(
                job,
                old.text.as_ptr(),
                old.text.len(),
                old.nodes.as_ptr(),
                old.nodes.len(),
                old.links.as_ptr(),
                old.links.len(),
                new.as_ptr(),
                new.len(),
                nodes.as_mut_ptr(),
                nodes.len(),
                links.as_mut_ptr(),
                links.len(),
                scratch.as_mut_ptr(),
                scratch.len(),
            )
        })
    }

    /// Reads the tests.
    pub fn read_tests(
        job: &mut Job,
        old: Version,
        new: Version,
        text: &[u8],
        tests: &mut [usize],
        rows: &mut [u64],
        scratch: &mut [usize],
    ) -> Answer {
        Answer::unpacked(unsafe {
            ry_job_read_tests(
                job,
                old.text.as_ptr(),
                old.text.len(),
                old.nodes.as_ptr(),
                old.nodes.len(),
                old.links.as_ptr(),
                old.links.len(),
                new.text.as_ptr(),
                new.text.len(),
                new.nodes.as_ptr(),
                new.nodes.len(),
                new.links.as_ptr(),
                new.links.len(),
                text.as_ptr(),
                text.len(),
                tests.as_mut_ptr(),
                tests.len(),
                rows.as_mut_ptr(),
                rows.len(),
                scratch.as_mut_ptr(),
                scratch.len(),
            )
        })
    }

    /// Serves a request of stage 3.
    pub fn call(
        job: &mut Job,
        lent: Read,
        request: Request,
        scratch: &mut [usize],
        out: &mut [u8],
    ) -> Answer {
        let Read {
            old,
            new,
            text,
            tests,
            rows,
        } = lent;
        Answer::unpacked(unsafe {
            ry_job_call(
                job,
                old.text.as_ptr(),
                old.text.len(),
                old.nodes.as_ptr(),
                old.nodes.len(),
                old.links.as_ptr(),
                old.links.len(),
                new.text.as_ptr(),
                new.text.len(),
                new.nodes.as_ptr(),
                new.nodes.len(),
                new.links.as_ptr(),
                new.links.len(),
                text.as_ptr(),
                text.len(),
                tests.as_ptr(),
                tests.len(),
                rows.as_ptr(),
                rows.len(),
                request.number,
                request.a,
                request.b,
                request.input.as_ptr(),
                request.input.len(),
                scratch.as_mut_ptr(),
                scratch.len(),
                out.as_mut_ptr(),
                out.len(),
            )
        })
    }

    /// Shows a label.
    pub fn label(
        job: &mut Job,
        lent: Read,
        side: usize,
        node: usize,
        scratch: &mut [usize],
    ) -> u64 {
        let Read {
            old,
            new,
            text,
            tests,
            rows,
        } = lent;
        unsafe {
            ry_job_label(
                job,
                old.text.as_ptr(),
                old.text.len(),
                old.nodes.as_ptr(),
                old.nodes.len(),
                old.links.as_ptr(),
                old.links.len(),
                new.text.as_ptr(),
                new.text.len(),
                new.nodes.as_ptr(),
                new.nodes.len(),
                new.links.as_ptr(),
                new.links.len(),
                text.as_ptr(),
                text.len(),
                tests.as_ptr(),
                tests.len(),
                rows.as_ptr(),
                rows.len(),
                side,
                node,
                scratch.as_mut_ptr(),
                scratch.len(),
            )
        }
    }
}
