//! The library's own functions (include/corefun.h), each called with the pointers and lengths of slices, and what they tell. That is all
//! that they ask for, so that these calls are safe.

/// What a call tells: number (0 accepted), place, length of the value, steps. Nurse: how many conversions stand in place of the steps.
/// Workshop: the length of what it has written. Replay: how it ended, count or offset, number, place.
pub type Told = [u64; 4];

type RunFunction = unsafe extern "C" fn(
    program: *const u8,
    program_length: usize,
    function: u16,
    ancillae: *const u8,
    ancillae_length: usize,
    value: *const u8,
    value_length: usize,
    fuel: u16,
    workspace: *mut u8,
    workspace_length: usize,
    output: *mut u8,
    output_length: usize,
    told: *mut Told,
);

type ReadFunction = unsafe extern "C" fn(
    journal: *const u8,
    journal_length: usize,
    output: *mut u8,
    output_length: usize,
    told: *mut Told,
);

extern "C" {
    fn corefun_check(
        program: *const u8,
        program_length: usize,
        workspace: *mut u8,
        workspace_length: usize,
        told: *mut Told,
    );
    fn corefun_forward(
        program: *const u8,
        program_length: usize,
        function: u16,
        ancillae: *const u8,
        ancillae_length: usize,
        value: *const u8,
        value_length: usize,
        fuel: u16,
        workspace: *mut u8,
        workspace_length: usize,
        output: *mut u8,
        output_length: usize,
        told: *mut Told,
    );
    fn corefun_backward(
        program: *const u8,
        program_length: usize,
        function: u16,
        ancillae: *const u8,
        ancillae_length: usize,
        value: *const u8,
        value_length: usize,
        fuel: u16,
        workspace: *mut u8,
        workspace_length: usize,
        output: *mut u8,
        output_length: usize,
        told: *mut Told,
    );
    fn corefun_open(
        program: *const u8,
        program_length: usize,
        record: *const u8,
        record_length: usize,
        workspace: *mut u8,
        workspace_length: usize,
        journal: *mut u8,
        journal_length: usize,
        told: *mut Told,
    );
    fn corefun_convert(
        program: *const u8,
        program_length: usize,
        function: u16,
        ancillae: *const u8,
        ancillae_length: usize,
        fuel: u16,
        workspace: *mut u8,
        workspace_length: usize,
        journal: *mut u8,
        journal_length: usize,
        told: *mut Told,
    );
    fn corefun_rollback(
        program: *const u8,
        program_length: usize,
        fuel: u16,
        workspace: *mut u8,
        workspace_length: usize,
        journal: *mut u8,
        journal_length: usize,
        told: *mut Told,
    );
    fn corefun_nurse(
        journal: *const u8,
        journal_length: usize,
        output: *mut u8,
        output_length: usize,
        told: *mut Told,
    );
    fn corefun_workshop(
        journal: *const u8,
        journal_length: usize,
        output: *mut u8,
        output_length: usize,
        told: *mut Told,
    );
    fn corefun_replay(
        program: *const u8,
        program_length: usize,
        script: *const u8,
        script_length: usize,
        workspace: *mut u8,
        workspace_length: usize,
        journal: *mut u8,
        journal_length: usize,
        answers: *mut u8,
        answers_length: usize,
        told: *mut Told,
    );
}

/// What no call tells, so that a call that tells nothing is found out.
const NOTHING: Told = [u64::MAX; 4];

// SAFETY, for every call below: each pointer and length are one slice's, and the borrows keep what is written apart from all else. The
// calls have no requirement of their own.

pub fn check(program: &[u8], workspace: &mut [u8]) -> Told {
    let mut told = NOTHING;
    unsafe {
        corefun_check(program.as_ptr(), program.len(), workspace.as_mut_ptr(), workspace.len(), &mut told);
    }
    told
}

/// What a run is given.
pub struct Run<'a> {
    pub program: &'a [u8],
    pub function: u16,
    pub ancillae: &'a [u8],
    pub value: &'a [u8],
    pub fuel: u16,
}

pub fn forward(run: &Run, workspace: &mut [u8], output: &mut [u8]) -> Told {
    carry(corefun_forward, run, workspace, output)
}

pub fn backward(run: &Run, workspace: &mut [u8], output: &mut [u8]) -> Told {
    carry(corefun_backward, run, workspace, output)
}

fn carry(function: RunFunction, run: &Run, workspace: &mut [u8], output: &mut [u8]) -> Told {
    let mut told = NOTHING;
    unsafe {
        function(
            run.program.as_ptr(),
            run.program.len(),
            run.function,
            run.ancillae.as_ptr(),
            run.ancillae.len(),
            run.value.as_ptr(),
            run.value.len(),
            run.fuel,
            workspace.as_mut_ptr(),
            workspace.len(),
            output.as_mut_ptr(),
            output.len(),
            &mut told,
        );
    }
    told
}

pub fn open(program: &[u8], record: &[u8], workspace: &mut [u8], journal: &mut [u8]) -> Told {
    let mut told = NOTHING;
    unsafe {
        corefun_open(
            program.as_ptr(),
            program.len(),
            record.as_ptr(),
            record.len(),
            workspace.as_mut_ptr(),
            workspace.len(),
            journal.as_mut_ptr(),
            journal.len(),
            &mut told,
        );
    }
    told
}

pub fn convert(
    program: &[u8],
    function: u16,
    ancillae: &[u8],
    fuel: u16,
    workspace: &mut [u8],
    journal: &mut [u8],
) -> Told {
    let mut told = NOTHING;
    unsafe {
        corefun_convert(
            program.as_ptr(),
            program.len(),
            function,
            ancillae.as_ptr(),
            ancillae.len(),
            fuel,
            workspace.as_mut_ptr(),
            workspace.len(),
            journal.as_mut_ptr(),
            journal.len(),
            &mut told,
        );
    }
    told
}

pub fn rollback(program: &[u8], fuel: u16, workspace: &mut [u8], journal: &mut [u8]) -> Told {
    let mut told = NOTHING;
    unsafe {
        corefun_rollback(
            program.as_ptr(),
            program.len(),
            fuel,
            workspace.as_mut_ptr(),
            workspace.len(),
            journal.as_mut_ptr(),
            journal.len(),
            &mut told,
        );
    }
    told
}

pub fn nurse(journal: &[u8], output: &mut [u8]) -> Told {
    see(corefun_nurse, journal, output)
}

pub fn workshop(journal: &[u8], output: &mut [u8]) -> Told {
    see(corefun_workshop, journal, output)
}

fn see(reader: ReadFunction, journal: &[u8], output: &mut [u8]) -> Told {
    let mut told = NOTHING;
    unsafe {
        reader(journal.as_ptr(), journal.len(), output.as_mut_ptr(), output.len(), &mut told);
    }
    told
}

pub fn replay(
    program: &[u8],
    script: &[u8],
    workspace: &mut [u8],
    journal: &mut [u8],
    answers: &mut [u8],
) -> Told {
    let mut told = NOTHING;
    unsafe {
        corefun_replay(
            program.as_ptr(),
            program.len(),
            script.as_ptr(),
            script.len(),
            workspace.as_mut_ptr(),
            workspace.len(),
            journal.as_mut_ptr(),
            journal.len(),
            answers.as_mut_ptr(),
            answers.len(),
            &mut told,
        );
    }
    told
}
