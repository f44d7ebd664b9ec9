//! The proved calls for safe Rust, over the static library of crates/crpd_c; include/crpd.h says what each call does.
//!
//! `rustc --crate-type rlib -L target/staticlib rust/crpd.rs`, after `bash tools/library`. It is built for x86-64.

/// Numbers of a work area.
pub const AREA_LENGTH: usize = 24832;
/// Numbers of a table of pair numbers.
pub const TABLE_LENGTH: usize = 64;
/// Bytes of the longest file: an out list of this length always suffices.
pub const FILE_LENGTH: usize = 7544;
/// The fewest numbers of a sheet that the costliest run is written to: they always suffice.
pub const COSTLIEST_SHEET_LENGTH: usize = 2311;
/// In a row: no memory block.
pub const NOTHING: u16 = 65535;
/// In the answers of the calls for C: no task.
const NO_TASK: u8 = 255;

/// The check that fails first, 1 to 21 but never 10, and the task that it names.
#[derive(Clone, Copy, Debug, PartialEq, Eq)]
pub struct Refusal {
    pub check: u8,
    pub task: Option<u8>,
}

impl Refusal {
    #[inline]
    fn new(check: u8, task: u8) -> Refusal {
        Refusal { check, task: (task != NO_TASK).then_some(task) }
    }

    /// The check and the task as two numbers, with 255 for no task.
    #[inline]
    pub fn numbers(self) -> (u8, u8) {
        (self.check, self.task.unwrap_or(NO_TASK))
    }
}

impl std::fmt::Display for Refusal {
    /// As crpd prints it.
    fn fmt(&self, to: &mut std::fmt::Formatter) -> std::fmt::Result {
        let (check, task) = self.numbers();
        write!(to, "refused {check} task {task}")
    }
}

impl std::error::Error for Refusal {}

/// What the head of an accepted file says.
#[derive(Clone, Copy, Debug, PartialEq, Eq)]
pub struct Head {
    pub cache_blocks: u8,
    pub tasks: u8,
}

/// The misses of a task's own references: U, without the preemptions, and D, with them; and the lost hits, those own
/// references that hit without the preemptions and miss with them.
#[derive(Clone, Copy, Debug, PartialEq, Eq)]
pub struct Misses {
    pub undisturbed: u32,
    pub disturbed: u32,
    pub lost: u32,
}

/// A time, not rounded: `whole` + `remainder` / clock microseconds, with the remainder below the clock in kHz.
#[derive(Clone, Copy, Debug, PartialEq, Eq)]
pub struct Time {
    pub whole: u32,
    pub remainder: u32,
}

/// The times of a task, in the layout of C's `struct crpd_times`.
#[repr(C)]
#[derive(Clone, Copy, Debug, PartialEq, Eq)]
pub struct Times {
    /// The execution time, 1 to 1,000,000.
    pub c: u32,
    /// The period, 1 to 1,000,000.
    pub t: u32,
    /// The deadline, 1 to the period.
    pub d: u32,
    /// The response time, which the call sets: 1 to the deadline, or 0 if the task is late.
    pub r: u32,
    /// Whether the task is late, which the call sets; it writes 0 or 1.
    pub late: bool,
}

/// `done` where the status is 0, else the refusal.
#[inline]
fn result<T>(status: u8, task: u8, done: T) -> Result<T, Refusal> {
    if status == 0 { Ok(done) } else { Err(Refusal::new(status, task)) }
}

/// Reader: checks 2 to 9.
#[inline]
pub fn read(file: &[u8]) -> Result<Head, Refusal> {
    let mut answer = [0; 3];
    let status = calls::read(file, &mut answer);
    let [task, cache_blocks, tasks] = answer;
    result(status, task, Head { cache_blocks, tasks })
}

/// Body: that part of the file, empty if the file isn't accepted or the task isn't below t.
#[inline]
pub fn body(file: &[u8], task: usize) -> &[u8] {
    let mut found = [0; 2];
    calls::body(file, task, &mut found);
    &file[found[0]..found[0] + found[1]]
}

/// States: checks 1 to 9, 15, and 11 for this task. The area gets the states; after a refusal it holds zeros, except
/// after 1, which changes nothing.
#[inline]
pub fn states(file: &[u8], task: usize, area: &mut [u16]) -> Result<(), Refusal> {
    let mut named = [0; 1];
    let status = calls::states(file, task, area, &mut named);
    result(status, named[0], ())
}

/// Row: that part of the area, empty if there is no such row.
#[inline]
pub fn row(area: &[u16], live: bool, block: usize, number: usize) -> &[u16] {
    let mut found = [0; 2];
    calls::row(area, u8::from(live), block, number, &mut found);
    &area[found[0]..found[0] + found[1]]
}

/// Table: checks 1 to 9 and 11. The table gets the pair numbers, and keeps its contents after a refusal; what the area holds
/// afterwards is free.
#[inline]
pub fn table(file: &[u8], area: &mut [u16], numbers: &mut [u16]) -> Result<(), Refusal> {
    let mut named = [0; 1];
    let status = calls::table(file, area, numbers, &mut named);
    result(status, named[0], ())
}

/// Replay: checks 2 to 9, 12, 13 and 16. A preemption of the sheet is a position in the path, the references done there, a
/// task and its path.
#[inline]
pub fn replay(file: &[u8], sheet: &[u16]) -> Result<Misses, Refusal> {
    let mut answer = [0; 4];
    let status = calls::replay(file, sheet, &mut answer);
    let [task, undisturbed, disturbed, lost] = answer;
    // a task that is named is a byte
    result(status, task as u8, Misses { undisturbed, disturbed, lost })
}

/// Writer: checks 5 to 9 and 14. The front of the out list gets the file, whose length is answered.
#[inline]
pub fn write(n: u8, bodies: &[u8], lengths: &[usize], out: &mut [u8]) -> Result<usize, Refusal> {
    let mut answer = [0; 2];
    let status = calls::write(n, bodies, lengths, out, &mut answer);
    let [task, length] = answer;
    // a task that is named is a byte
    result(status, task as u8, length)
}

/// Microseconds: the time of `number` misses of `penalty` cycles each at a clock of `clock` kHz. Check 17.
#[inline]
pub fn microseconds(number: u32, penalty: u32, clock: u32) -> Result<Time, Refusal> {
    let mut answer = [0; 3];
    let status = calls::microseconds(number, penalty, clock, &mut answer);
    let [task, whole, remainder] = answer;
    // a task that is named is a byte
    result(status, task as u8, Time { whole, remainder })
}

/// Costliest run of task i preempted once by task j: checks 1 to 9, 18, 19, and 11 for the two tasks. The front of the
/// sheet gets the run, whose length is answered; the places after it keep their contents, and after a refusal all do.
/// What the areas hold afterwards is free.
#[inline]
pub fn costliest_run(
    file: &[u8], i: usize, j: usize, first: &mut [u16], second: &mut [u16], sheet: &mut [u16],
) -> Result<usize, Refusal> {
    let mut answer = [0; 2];
    let status = calls::costliest_run(file, i, j, first, second, sheet, &mut answer);
    let [task, length] = answer;
    // a task that is named is a byte
    result(status, task as u8, length)
}

/// Nested replay: the misses of all tasks. Checks 2 to 9, then 12 and 20, of which the first number at fault decides, then
/// 13 and 16. A preemption of the sheet is a position in the path that it preempts, the references done there, and the
/// preempting run: a task, its path and its own preemptions.
#[inline]
pub fn nested(file: &[u8], sheet: &[u16]) -> Result<u64, Refusal> {
    let mut answer = [0; 2];
    let status = calls::nested(file, sheet, &mut answer);
    let [task, total] = answer;
    // a task that is named is a byte
    result(status, task as u8, total)
}

/// Response times of a file whose tasks come highest priority first: checks 1 to 9, 11 and 21. The list has one record a
/// task, and gets R, the least number that meets the equation of include/crpd.h, and the late marks; after a refusal it
/// keeps its contents. The penalty is 0 to 1,000. What the area holds afterwards is free.
#[inline]
pub fn response_times(file: &[u8], area: &mut [u16], list: &mut [Times], penalty: u32) -> Result<(), Refusal> {
    let mut named = [0; 1];
    let status = calls::response_times(file, area, list, penalty, &mut named);
    result(status, named[0], ())
}

/// The calls as include/crpd.h has them: each answers its status, and puts the rest into its last list, which has a
/// fixed length. A slice passes as a pointer and a number of elements.
pub mod calls {
    use super::Times;

    #[link(name = "crpd_c", kind = "static")]
    extern "C" {
        fn crpd_read(file: *const u8, file_length: usize, answer: *mut u8, answer_length: usize) -> u8;
        fn crpd_body(file: *const u8, file_length: usize, task: usize, found: *mut usize, found_length: usize) -> u8;
        fn crpd_states(
            file: *const u8, file_length: usize, task: usize, area: *mut u16, area_length: usize,
            named: *mut u8, named_length: usize,
        ) -> u8;
        fn crpd_row(
            area: *const u16, area_length: usize, live: u8, block: usize, number: usize,
            found: *mut usize, found_length: usize,
        ) -> u8;
        fn crpd_table(
            file: *const u8, file_length: usize, area: *mut u16, area_length: usize,
            numbers: *mut u16, numbers_length: usize, named: *mut u8, named_length: usize,
        ) -> u8;
        fn crpd_replay(
            file: *const u8, file_length: usize, sheet: *const u16, sheet_length: usize,
            answer: *mut u32, answer_length: usize,
        ) -> u8;
        fn crpd_write(
            n: u8, bodies: *const u8, bodies_length: usize, lengths: *const usize, lengths_length: usize,
            out: *mut u8, out_length: usize, answer: *mut usize, answer_length: usize,
        ) -> u8;
        fn crpd_microseconds(number: u32, penalty: u32, clock: u32, answer: *mut u32, answer_length: usize) -> u8;
        fn crpd_costliest_run(
            file: *const u8, file_length: usize, i: usize, j: usize, first: *mut u16, first_length: usize,
            second: *mut u16, second_length: usize, sheet: *mut u16, sheet_length: usize,
            answer: *mut usize, answer_length: usize,
        ) -> u8;
        fn crpd_nested(
            file: *const u8, file_length: usize, sheet: *const u16, sheet_length: usize,
            answer: *mut u64, answer_length: usize,
        ) -> u8;
        fn crpd_response_times(
            file: *const u8, file_length: usize, area: *mut u16, area_length: usize,
            list: *mut Times, list_length: usize, penalty: u32, named: *mut u8, named_length: usize,
        ) -> u8;
    }

    // In each call below the pointers and the numbers of elements are those of slices, and slices that are written to
    // overlap no other.

    #[inline]
    pub fn read(file: &[u8], answer: &mut [u8]) -> u8 {
        unsafe { crpd_read(file.as_ptr(), file.len(), answer.as_mut_ptr(), answer.len()) }
    }

    #[inline]
    pub fn body(file: &[u8], task: usize, found: &mut [usize]) -> u8 {
        unsafe { crpd_body(file.as_ptr(), file.len(), task, found.as_mut_ptr(), found.len()) }
    }

    #[inline]
    pub fn states(file: &[u8], task: usize, area: &mut [u16], named: &mut [u8]) -> u8 {
        unsafe {
            crpd_states(
                file.as_ptr(), file.len(), task, area.as_mut_ptr(), area.len(), named.as_mut_ptr(), named.len(),
            )
        }
    }

    #[inline]
    pub fn row(area: &[u16], live: u8, block: usize, number: usize, found: &mut [usize]) -> u8 {
        unsafe { crpd_row(area.as_ptr(), area.len(), live, block, number, found.as_mut_ptr(), found.len()) }
    }

    #[inline]
    pub fn table(file: &[u8], area: &mut [u16], numbers: &mut [u16], named: &mut [u8]) -> u8 {
        unsafe {
            crpd_table(
                file.as_ptr(), file.len(), area.as_mut_ptr(), area.len(),
                numbers.as_mut_ptr(), numbers.len(), named.as_mut_ptr(), named.len(),
            )
        }
    }

    #[inline]
    pub fn replay(file: &[u8], sheet: &[u16], answer: &mut [u32]) -> u8 {
        unsafe {
            crpd_replay(
                file.as_ptr(), file.len(), sheet.as_ptr(), sheet.len(), answer.as_mut_ptr(), answer.len(),
            )
        }
    }

    #[inline]
    pub fn write(n: u8, bodies: &[u8], lengths: &[usize], out: &mut [u8], answer: &mut [usize]) -> u8 {
        unsafe {
            crpd_write(
                n, bodies.as_ptr(), bodies.len(), lengths.as_ptr(), lengths.len(),
                out.as_mut_ptr(), out.len(), answer.as_mut_ptr(), answer.len(),
            )
        }
    }

    #[inline]
    pub fn microseconds(number: u32, penalty: u32, clock: u32, answer: &mut [u32]) -> u8 {
        unsafe { crpd_microseconds(number, penalty, clock, answer.as_mut_ptr(), answer.len()) }
    }

    #[inline]
    pub fn costliest_run(
        file: &[u8], i: usize, j: usize, first: &mut [u16], second: &mut [u16], sheet: &mut [u16],
        answer: &mut [usize],
    ) -> u8 {
        unsafe {
            crpd_costliest_run(
                file.as_ptr(), file.len(), i, j, first.as_mut_ptr(), first.len(),
                second.as_mut_ptr(), second.len(), sheet.as_mut_ptr(), sheet.len(),
                answer.as_mut_ptr(), answer.len(),
            )
        }
    }

    #[inline]
    pub fn nested(file: &[u8], sheet: &[u16], answer: &mut [u64]) -> u8 {
        unsafe {
            crpd_nested(
                file.as_ptr(), file.len(), sheet.as_ptr(), sheet.len(), answer.as_mut_ptr(), answer.len(),
            )
        }
    }

    #[inline]
    pub fn response_times(
        file: &[u8], area: &mut [u16], list: &mut [Times], penalty: u32, named: &mut [u8],
    ) -> u8 {
        unsafe {
            crpd_response_times(
                file.as_ptr(), file.len(), area.as_mut_ptr(), area.len(),
                list.as_mut_ptr(), list.len(), penalty, named.as_mut_ptr(), named.len(),
            )
        }
    }
}
