//! The proved library's C functions, with a slice for a pointer and a length: all that
//! include/floebucket.h declares. A function returns the number of its answer and puts the rest into
//! the result buffer, as the header says.
//!
//! The command line, the tests of the calls and the benchmark call the library through this crate
//! alone, so that it has all unsafe code that concerns the library.

/// The bytes of a result buffer.
pub const RESULT: usize = 11;

/// The bytes of one that takes a place.
pub const PLACE: usize = 18;

/// The bytes of one that takes a part of a catalogue or a line of a sheet.
pub const COUNTED: usize = 8;

mod c {
    extern "C" {
        pub fn floe_check(f: *const u8, f_len: usize, r: *mut u8, r_len: usize) -> u8;
        pub fn floe_sizes(
            f: *const u8,
            f_len: usize,
            o: *mut u8,
            o_len: usize,
            r: *mut u8,
            r_len: usize,
        ) -> u8;
        pub fn floe_fault(f: *const u8, f_len: usize, r: *mut u8, r_len: usize) -> u8;
        pub fn floe_search(
            f: *const u8,
            f_len: usize,
            budget: u32,
            s: *mut u8,
            s_len: usize,
            r: *mut u8,
            r_len: usize,
        ) -> u8;
        pub fn floe_search_in(
            f: *const u8,
            f_len: usize,
            budget: u32,
            m: *mut u64,
            m_len: usize,
            s: *mut u8,
            s_len: usize,
            r: *mut u8,
            r_len: usize,
        ) -> u8;
        #[cfg(feature = "before")]
        pub fn before_search(
            f: *const u8,
            f_len: usize,
            budget: u32,
            s: *mut u8,
            s_len: usize,
            r: *mut u8,
            r_len: usize,
        ) -> u8;
        #[cfg(feature = "before_any")]
        pub fn before_any(
            f: *const u8,
            f_len: usize,
            budget: u32,
            s: *mut u8,
            s_len: usize,
            r: *mut u8,
            r_len: usize,
        ) -> u8;
        pub fn floe_first(
            f: *const u8,
            f_len: usize,
            s: *mut u8,
            s_len: usize,
            r: *mut u8,
            r_len: usize,
        ) -> u8;
        pub fn floe_least(
            f: *const u8,
            f_len: usize,
            budget: u32,
            m: *mut u64,
            m_len: usize,
            s: *mut u8,
            s_len: usize,
            r: *mut u8,
            r_len: usize,
        ) -> u8;
        pub fn floe_rows(
            f: *const u8,
            f_len: usize,
            s: *const u8,
            s_len: usize,
            o: *mut u8,
            o_len: usize,
            r: *mut u8,
            r_len: usize,
        ) -> u8;
        pub fn door_verdict(
            f: *const u8,
            f_len: usize,
            s: *const u8,
            s_len: usize,
            r: *mut u8,
            r_len: usize,
        ) -> u8;
        pub fn door_margins(
            f: *const u8,
            f_len: usize,
            s: *const u8,
            s_len: usize,
            o: *mut u8,
            o_len: usize,
            r: *mut u8,
            r_len: usize,
        ) -> u8;
        pub fn door_write(
            t: *const u8,
            t_len: usize,
            o: *mut u8,
            o_len: usize,
            r: *mut u8,
            r_len: usize,
        ) -> u8;
        pub fn door_fault(t: *const u8, t_len: usize, r: *mut u8, r_len: usize) -> u8;
        pub fn door_order_fault(
            c: *const u8,
            c_len: usize,
            w: *const u8,
            w_len: usize,
            r: *mut u8,
            r_len: usize,
        ) -> u8;
        pub fn door_devices_fault(g: *const u8, g_len: usize, r: *mut u8, r_len: usize) -> u8;
        pub fn door_jobs_fault(g: *const u8, g_len: usize, r: *mut u8, r_len: usize) -> u8;
        pub fn door_tables(
            f: *const u8,
            f_len: usize,
            o: *mut u8,
            o_len: usize,
            r: *mut u8,
            r_len: usize,
        ) -> u8;
        pub fn door_build(
            c: *const u8,
            c_len: usize,
            w: *const u8,
            w_len: usize,
            t: *const u8,
            t_len: usize,
            o: *mut u8,
            o_len: usize,
            r: *mut u8,
            r_len: usize,
        ) -> u8;
        pub fn door_possible(
            f: *const u8,
            f_len: usize,
            budget: u32,
            s: *mut u8,
            s_len: usize,
            r: *mut u8,
            r_len: usize,
        ) -> u8;
        pub fn door_mend(
            f: *const u8,
            f_len: usize,
            s: *const u8,
            s_len: usize,
            o: *mut u8,
            o_len: usize,
            m: *mut u8,
            m_len: usize,
            r: *mut u8,
            r_len: usize,
        ) -> u8;
        pub fn door_step(
            f: *const u8,
            f_len: usize,
            s: *const u8,
            s_len: usize,
            o: *mut u8,
            o_len: usize,
            r: *mut u8,
            r_len: usize,
        ) -> u8;
        pub fn floe_step_start(
            d: *const u8,
            d_len: usize,
            uses: u8,
            next: u8,
            pause: u16,
            r: *mut u8,
            r_len: usize,
        ) -> u8;
        pub fn floe_step_end(
            d: *const u8,
            d_len: usize,
            uses: u8,
            next: u8,
            pause: u16,
            r: *mut u8,
            r_len: usize,
        ) -> u8;
        pub fn floe_step_pass(
            d: *const u8,
            d_len: usize,
            ticks: u16,
            r: *mut u8,
            r_len: usize,
        ) -> u8;
        pub fn door_export_plan(
            f: *const u8,
            f_len: usize,
            s: *const u8,
            s_len: usize,
            o: *mut u8,
            o_len: usize,
            r: *mut u8,
            r_len: usize,
        ) -> u8;
        pub fn door_import_devices(
            g: *const u8,
            g_len: usize,
            o: *mut u8,
            o_len: usize,
            r: *mut u8,
            r_len: usize,
        ) -> u8;
        pub fn door_export_devices(
            g: *const u8,
            g_len: usize,
            o: *mut u8,
            o_len: usize,
            r: *mut u8,
            r_len: usize,
        ) -> u8;
        pub fn door_import_jobs(
            g: *const u8,
            g_len: usize,
            o: *mut u8,
            o_len: usize,
            r: *mut u8,
            r_len: usize,
        ) -> u8;
        pub fn door_export_jobs(
            g: *const u8,
            g_len: usize,
            o: *mut u8,
            o_len: usize,
            r: *mut u8,
            r_len: usize,
        ) -> u8;
    }
}

// SAFETY, of every call below: each pointer comes from a live slice and goes with that slice's own
// length, no two of a call overlap, and the library keeps none of them.

pub fn check(file: &[u8], result: &mut [u8]) -> u8 {
    unsafe { c::floe_check(file.as_ptr(), file.len(), result.as_mut_ptr(), result.len()) }
}

pub fn sizes(file: &[u8], sizes: &mut [u8], result: &mut [u8]) -> u8 {
    unsafe {
        c::floe_sizes(
            file.as_ptr(),
            file.len(),
            sizes.as_mut_ptr(),
            sizes.len(),
            result.as_mut_ptr(),
            result.len(),
        )
    }
}

pub fn fault(file: &[u8], result: &mut [u8]) -> u8 {
    unsafe { c::floe_fault(file.as_ptr(), file.len(), result.as_mut_ptr(), result.len()) }
}

pub fn search(file: &[u8], budget: u32, starts: &mut [u8], result: &mut [u8]) -> u8 {
    unsafe {
        c::floe_search(
            file.as_ptr(),
            file.len(),
            budget,
            starts.as_mut_ptr(),
            starts.len(),
            result.as_mut_ptr(),
            result.len(),
        )
    }
}

pub fn search_in(
    file: &[u8],
    budget: u32,
    memory: &mut [u64],
    starts: &mut [u8],
    result: &mut [u8],
) -> u8 {
    unsafe {
        c::floe_search_in(
            file.as_ptr(),
            file.len(),
            budget,
            memory.as_mut_ptr(),
            memory.len(),
            starts.as_mut_ptr(),
            starts.len(),
            result.as_mut_ptr(),
            result.len(),
        )
    }
}

/// The search of an earlier commit.
#[cfg(feature = "before")]
pub fn before_search(file: &[u8], budget: u32, starts: &mut [u8], result: &mut [u8]) -> u8 {
    unsafe {
        c::before_search(
            file.as_ptr(),
            file.len(),
            budget,
            starts.as_mut_ptr(),
            starts.len(),
            result.as_mut_ptr(),
            result.len(),
        )
    }
}

/// Whether there is any plan, by an earlier commit.
#[cfg(feature = "before_any")]
pub fn before_any(file: &[u8], budget: u32, starts: &mut [u8], result: &mut [u8]) -> u8 {
    unsafe {
        c::before_any(
            file.as_ptr(),
            file.len(),
            budget,
            starts.as_mut_ptr(),
            starts.len(),
            result.as_mut_ptr(),
            result.len(),
        )
    }
}

pub fn first(file: &[u8], starts: &mut [u8], result: &mut [u8]) -> u8 {
    unsafe {
        c::floe_first(
            file.as_ptr(),
            file.len(),
            starts.as_mut_ptr(),
            starts.len(),
            result.as_mut_ptr(),
            result.len(),
        )
    }
}

pub fn least(
    file: &[u8],
    budget: u32,
    memory: &mut [u64],
    starts: &mut [u8],
    result: &mut [u8],
) -> u8 {
    unsafe {
        c::floe_least(
            file.as_ptr(),
            file.len(),
            budget,
            memory.as_mut_ptr(),
            memory.len(),
            starts.as_mut_ptr(),
            starts.len(),
            result.as_mut_ptr(),
            result.len(),
        )
    }
}

pub fn rows(file: &[u8], starts: &[u8], out: &mut [u8], result: &mut [u8]) -> u8 {
    unsafe {
        c::floe_rows(
            file.as_ptr(),
            file.len(),
            starts.as_ptr(),
            starts.len(),
            out.as_mut_ptr(),
            out.len(),
            result.as_mut_ptr(),
            result.len(),
        )
    }
}

pub fn verdict(file: &[u8], starts: &[u8], result: &mut [u8]) -> u8 {
    unsafe {
        c::door_verdict(
            file.as_ptr(),
            file.len(),
            starts.as_ptr(),
            starts.len(),
            result.as_mut_ptr(),
            result.len(),
        )
    }
}

pub fn margins(file: &[u8], starts: &[u8], out: &mut [u8], result: &mut [u8]) -> u8 {
    unsafe {
        c::door_margins(
            file.as_ptr(),
            file.len(),
            starts.as_ptr(),
            starts.len(),
            out.as_mut_ptr(),
            out.len(),
            result.as_mut_ptr(),
            result.len(),
        )
    }
}

pub fn mend(file: &[u8], starts: &[u8], out: &mut [u8], moved: &mut [u8], result: &mut [u8]) -> u8 {
    unsafe {
        c::door_mend(
            file.as_ptr(),
            file.len(),
            starts.as_ptr(),
            starts.len(),
            out.as_mut_ptr(),
            out.len(),
            moved.as_mut_ptr(),
            moved.len(),
            result.as_mut_ptr(),
            result.len(),
        )
    }
}

pub fn step(file: &[u8], starts: &[u8], out: &mut [u8], result: &mut [u8]) -> u8 {
    unsafe {
        c::door_step(
            file.as_ptr(),
            file.len(),
            starts.as_ptr(),
            starts.len(),
            out.as_mut_ptr(),
            out.len(),
            result.as_mut_ptr(),
            result.len(),
        )
    }
}

/// A job starts: whether it uses the device (any byte but 0), whether the next does, and the pause between
/// them. The record is read and written.
pub fn step_start(device: &[u8], uses: u8, next: u8, pause: u16, record: &mut [u8]) -> u8 {
    unsafe {
        c::floe_step_start(
            device.as_ptr(),
            device.len(),
            uses,
            next,
            pause,
            record.as_mut_ptr(),
            record.len(),
        )
    }
}

/// A job is completed: whether it uses the device (any byte but 0), whether the next does, and the pause between
/// them. The record is read and written.
pub fn step_end(device: &[u8], uses: u8, next: u8, pause: u16, record: &mut [u8]) -> u8 {
    unsafe {
        c::floe_step_end(
            device.as_ptr(),
            device.len(),
            uses,
            next,
            pause,
            record.as_mut_ptr(),
            record.len(),
        )
    }
}

/// So many ticks pass.
pub fn step_pass(device: &[u8], ticks: u16, record: &mut [u8]) -> u8 {
    unsafe {
        c::floe_step_pass(
            device.as_ptr(),
            device.len(),
            ticks,
            record.as_mut_ptr(),
            record.len(),
        )
    }
}

pub fn write(tables: &[u8], out: &mut [u8], result: &mut [u8]) -> u8 {
    unsafe {
        c::door_write(
            tables.as_ptr(),
            tables.len(),
            out.as_mut_ptr(),
            out.len(),
            result.as_mut_ptr(),
            result.len(),
        )
    }
}

pub fn fault_in_tables(tables: &[u8], result: &mut [u8]) -> u8 {
    unsafe {
        c::door_fault(
            tables.as_ptr(),
            tables.len(),
            result.as_mut_ptr(),
            result.len(),
        )
    }
}

pub fn order_fault(catalogue: &[u8], wanted: &[u8], result: &mut [u8]) -> u8 {
    unsafe {
        c::door_order_fault(
            catalogue.as_ptr(),
            catalogue.len(),
            wanted.as_ptr(),
            wanted.len(),
            result.as_mut_ptr(),
            result.len(),
        )
    }
}

pub fn devices_fault(given: &[u8], result: &mut [u8]) -> u8 {
    unsafe {
        c::door_devices_fault(
            given.as_ptr(),
            given.len(),
            result.as_mut_ptr(),
            result.len(),
        )
    }
}

pub fn jobs_fault(given: &[u8], result: &mut [u8]) -> u8 {
    unsafe {
        c::door_jobs_fault(
            given.as_ptr(),
            given.len(),
            result.as_mut_ptr(),
            result.len(),
        )
    }
}

pub fn tables(file: &[u8], out: &mut [u8], result: &mut [u8]) -> u8 {
    unsafe {
        c::door_tables(
            file.as_ptr(),
            file.len(),
            out.as_mut_ptr(),
            out.len(),
            result.as_mut_ptr(),
            result.len(),
        )
    }
}

pub fn build(
    catalogue: &[u8],
    wanted: &[u8],
    tables: &[u8],
    out: &mut [u8],
    result: &mut [u8],
) -> u8 {
    unsafe {
        c::door_build(
            catalogue.as_ptr(),
            catalogue.len(),
            wanted.as_ptr(),
            wanted.len(),
            tables.as_ptr(),
            tables.len(),
            out.as_mut_ptr(),
            out.len(),
            result.as_mut_ptr(),
            result.len(),
        )
    }
}

pub fn possible(file: &[u8], budget: u32, starts: &mut [u8], result: &mut [u8]) -> u8 {
    unsafe {
        c::door_possible(
            file.as_ptr(),
            file.len(),
            budget,
            starts.as_mut_ptr(),
            starts.len(),
            result.as_mut_ptr(),
            result.len(),
        )
    }
}

pub fn export_plan(file: &[u8], starts: &[u8], out: &mut [u8], result: &mut [u8]) -> u8 {
    unsafe {
        c::door_export_plan(
            file.as_ptr(),
            file.len(),
            starts.as_ptr(),
            starts.len(),
            out.as_mut_ptr(),
            out.len(),
            result.as_mut_ptr(),
            result.len(),
        )
    }
}

pub fn import_devices(given: &[u8], out: &mut [u8], result: &mut [u8]) -> u8 {
    unsafe {
        c::door_import_devices(
            given.as_ptr(),
            given.len(),
            out.as_mut_ptr(),
            out.len(),
            result.as_mut_ptr(),
            result.len(),
        )
    }
}

pub fn export_devices(given: &[u8], out: &mut [u8], result: &mut [u8]) -> u8 {
    unsafe {
        c::door_export_devices(
            given.as_ptr(),
            given.len(),
            out.as_mut_ptr(),
            out.len(),
            result.as_mut_ptr(),
            result.len(),
        )
    }
}

pub fn import_jobs(given: &[u8], out: &mut [u8], result: &mut [u8]) -> u8 {
    unsafe {
        c::door_import_jobs(
            given.as_ptr(),
            given.len(),
            out.as_mut_ptr(),
            out.len(),
            result.as_mut_ptr(),
            result.len(),
        )
    }
}

pub fn export_jobs(given: &[u8], out: &mut [u8], result: &mut [u8]) -> u8 {
    unsafe {
        c::door_export_jobs(
            given.as_ptr(),
            given.len(),
            out.as_mut_ptr(),
            out.len(),
            result.as_mut_ptr(),
            result.len(),
        )
    }
}
