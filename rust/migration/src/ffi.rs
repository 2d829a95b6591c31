//! The calls of the static library that is built from the proved code.
//!
//! Each C function takes every slice as pointer and length, a tray as a mutable
//! pointer and length, a number as itself, and gives a number that
//! [`crate::answer::read`] explains.
//!
//! # Why the calls are safe
//!
//! Each pointer comes from a Rust slice and goes with that slice's own length,
//! so the library may read every byte it was lent and no other; an empty
//! slice's pointer is not null and is lent with length 0.  A tray is lent
//! exclusively for the time of the call, of two trays each, and sheets are only
//! read.  The library keeps no pointer and has no state, so calls may run side by
//! side.

extern "C" {
    pub(crate) fn migration_check_schema(s: *const u8, s_len: usize) -> u64;

    pub(crate) fn migration_check_mapping(
        s: *const u8,
        s_len: usize,
        t: *const u8,
        t_len: usize,
        f: *const u8,
        f_len: usize,
    ) -> u64;

    pub(crate) fn migration_check_instance(
        s: *const u8,
        s_len: usize,
        i: *const u8,
        i_len: usize,
    ) -> u64;

    pub(crate) fn migration_first_path(
        s: *const u8,
        s_len: usize,
        p: *const u8,
        p_len: usize,
        tray: *mut u8,
        tray_len: usize,
    ) -> u64;

    pub(crate) fn migration_path_chain(
        s: *const u8,
        s_len: usize,
        p: *const u8,
        p_len: usize,
        q: *const u8,
        q_len: usize,
        tray: *mut u8,
        tray_len: usize,
    ) -> u64;

    pub(crate) fn migration_delta(
        s: *const u8,
        s_len: usize,
        t: *const u8,
        t_len: usize,
        f: *const u8,
        f_len: usize,
        j: *const u8,
        j_len: usize,
        tray: *mut u8,
        tray_len: usize,
    ) -> u64;

    pub(crate) fn migration_sigma(
        s: *const u8,
        s_len: usize,
        t: *const u8,
        t_len: usize,
        f: *const u8,
        f_len: usize,
        i: *const u8,
        i_len: usize,
        tray: *mut u8,
        tray_len: usize,
    ) -> u64;

    pub(crate) fn migration_pi(
        s: *const u8,
        s_len: usize,
        t: *const u8,
        t_len: usize,
        f: *const u8,
        f_len: usize,
        i: *const u8,
        i_len: usize,
        tray: *mut u8,
        tray_len: usize,
    ) -> u64;

    pub(crate) fn migration_query(
        s1: *const u8,
        s1_len: usize,
        s2: *const u8,
        s2_len: usize,
        s3: *const u8,
        s3_len: usize,
        s4: *const u8,
        s4_len: usize,
        f: *const u8,
        f_len: usize,
        g: *const u8,
        g_len: usize,
        h: *const u8,
        h_len: usize,
        run: *const u8,
        run_len: usize,
        tray: *mut u8,
        tray_len: usize,
    ) -> u64;

    pub(crate) fn migration_compose(
        s: *const u8,
        s_len: usize,
        t: *const u8,
        t_len: usize,
        u: *const u8,
        u_len: usize,
        f: *const u8,
        f_len: usize,
        g: *const u8,
        g_len: usize,
        tray: *mut u8,
        tray_len: usize,
    ) -> u64;

    pub(crate) fn migration_add_row(
        s: *const u8,
        s_len: usize,
        t: *const u8,
        t_len: usize,
        f: *const u8,
        f_len: usize,
        run: *mut u8,
        run_len: usize,
        run_length: u64,
        table: u64,
        row: *const u8,
        row_len: usize,
        pushed: *mut u8,
        pushed_len: usize,
    ) -> u64;

    pub(crate) fn migration_withdraw_row(
        s: *const u8,
        s_len: usize,
        t: *const u8,
        t_len: usize,
        f: *const u8,
        f_len: usize,
        run: *mut u8,
        run_len: usize,
        run_length: u64,
        table: u64,
        row: u64,
        pushed: *mut u8,
        pushed_len: usize,
    ) -> u64;

    pub(crate) fn migration_check_pushed(
        s: *const u8,
        s_len: usize,
        t: *const u8,
        t_len: usize,
        f: *const u8,
        f_len: usize,
        run: *const u8,
        run_len: usize,
        book: *const u8,
        book_len: usize,
        list: *const u8,
        list_len: usize,
    ) -> u64;

    pub(crate) fn migration_check_raw(
        s: *const u8,
        s_len: usize,
        t: *const u8,
        t_len: usize,
        f: *const u8,
        f_len: usize,
        run: *const u8,
        run_len: usize,
        book: *const u8,
        book_len: usize,
        list: *const u8,
        list_len: usize,
    ) -> u64;

    pub(crate) fn migration_pushed_to_raw(
        s: *const u8,
        s_len: usize,
        t: *const u8,
        t_len: usize,
        f: *const u8,
        f_len: usize,
        run: *const u8,
        run_len: usize,
        book: *const u8,
        book_len: usize,
        list: *const u8,
        list_len: usize,
        tray: *mut u8,
        tray_len: usize,
    ) -> u64;

    pub(crate) fn migration_raw_to_pushed(
        s: *const u8,
        s_len: usize,
        t: *const u8,
        t_len: usize,
        f: *const u8,
        f_len: usize,
        run: *const u8,
        run_len: usize,
        book: *const u8,
        book_len: usize,
        list: *const u8,
        list_len: usize,
        tray: *mut u8,
        tray_len: usize,
    ) -> u64;
}

/// Calls a C function with each sheet, a slice, as pointer and length, and with
/// the tray, a mutable slice, if there is one.
macro_rules! call {
    ($function:ident($($sheet:ident),*)) => {{
        // SAFETY: each pointer is lent with its slice's own length; see above.
        let answer = unsafe { $crate::ffi::$function($($sheet.as_ptr(), $sheet.len()),*) };
        $crate::answer::read(answer)
    }};
    ($function:ident($($sheet:ident),*; $tray:ident)) => {{
        // SAFETY: each pointer is lent with its slice's own length, the tray
        // exclusively; see above.
        let answer = unsafe {
            $crate::ffi::$function(
                $($sheet.as_ptr(), $sheet.len()),*,
                $tray.as_mut_ptr(),
                $tray.len(),
            )
        };
        $crate::answer::read(answer)
    }};
}

pub(crate) use call;
