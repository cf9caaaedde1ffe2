//! Safe wrappers over the functions of the C interface.

#[rustfmt::skip] // one or two lines to a function
mod raw {
    extern "C" {
        pub fn sps_sum(n: u32, m: u32, a: *const u32, a_len: usize, b: *const u32, b_len: usize,
            result: *mut u32, result_len: usize) -> u32;
        pub fn sps_difference(n: u32, m: u32, a: *const u32, a_len: usize, b: *const u32, b_len: usize,
            result: *mut u32, result_len: usize) -> u32;
        pub fn sps_subset_product(n: u32, m: u32, a: *const u32, a_len: usize, b: *const u32, b_len: usize,
            result: *mut u32, result_len: usize, pad: *mut u32, pad_len: usize) -> u64;
        pub fn sps_union_product(n: u32, m: u32, a: *const u32, a_len: usize, b: *const u32, b_len: usize,
            result: *mut u32, result_len: usize, pad: *mut u32, pad_len: usize) -> u32;
        pub fn sps_xor_product(n: u32, m: u32, a: *const u32, a_len: usize, b: *const u32, b_len: usize,
            result: *mut u32, result_len: usize, pad: *mut u32, pad_len: usize) -> u32;
        pub fn sps_binomial_product(n: u32, m: u32, f: *const u32, f_len: usize, g: *const u32, g_len: usize,
            result: *mut u32, result_len: usize) -> u32;
        pub fn sps_exponential(n: u32, m: u32, a: *const u32, a_len: usize,
            result: *mut u32, result_len: usize, pad: *mut u32, pad_len: usize) -> u32;
        pub fn sps_logarithm(n: u32, m: u32, a: *const u32, a_len: usize,
            result: *mut u32, result_len: usize, pad: *mut u32, pad_len: usize) -> u32;
        pub fn sps_inverse(n: u32, m: u32, a: *const u32, a_len: usize,
            result: *mut u32, result_len: usize, pad: *mut u32, pad_len: usize) -> u32;
        pub fn sps_composition(n: u32, m: u32, a: *const u32, a_len: usize, f: *const u32, f_len: usize,
            result: *mut u32, result_len: usize, pad: *mut u32, pad_len: usize) -> u32;
        pub fn sps_projection(n: u32, m: u32, a: *const u32, a_len: usize, b: *const u32, b_len: usize,
            result: *mut u32, result_len: usize, pad: *mut u32, pad_len: usize) -> u32;
        pub fn sps_board_fresh(n: u32, m: u32,
            a: *mut u32, a_len: usize, e: *mut u32, e_len: usize, i: *mut u32, i_len: usize) -> u32;
        pub fn sps_board_add(n: u32, m: u32, set: u32, weight: u32,
            a: *mut u32, a_len: usize, e: *mut u32, e_len: usize, i: *mut u32, i_len: usize) -> u32;
        pub fn sps_board_take(n: u32, m: u32, set: u32, weight: u32,
            a: *mut u32, a_len: usize, e: *mut u32, e_len: usize, i: *mut u32, i_len: usize) -> u32;
        pub fn sps_recipe(n: u32, m: u32, line: *const u8, line_len: usize, a: *const u32, a_len: usize,
            b: *const u32, b_len: usize, c: *const u32, c_len: usize, d: *const u32, d_len: usize,
            result: *mut u32, result_len: usize, pad: *mut u32, pad_len: usize) -> u32;
        pub fn sps_header_check(bytes: *const u8, len: usize) -> u64;
        pub fn sps_read_table(bytes: *const u8, len: usize, table: *mut u32, table_len: usize) -> u64;
        pub fn sps_write_table(n: u32, m: u32, table: *const u32, table_len: usize,
            buffer: *mut u8, buffer_len: usize) -> u64;
        pub fn sps_write_sparse(n: u32, m: u32, table: *const u32, table_len: usize,
            buffer: *mut u8, buffer_len: usize) -> u64;
        pub fn sps_write_pages(n: u32, m: u32, table: *const u32, table_len: usize, labels: *const u8, labels_len: usize,
            buffer: *mut u8, buffer_len: usize) -> u64;
    }
}

/// A safe wrapper over a function of two inputs, with or without a pad.
macro_rules! of_two_inputs {
    ($wrapper:ident, $function:ident -> $answer:ty $(, $pad:ident)?) => {
        pub fn $wrapper(n: u32, m: u32, a: &[u32], b: &[u32], result: &mut [u32] $(, $pad: &mut [u32])?) -> $answer {
            // Sound: every pointer and length is that of a slice, and Rust lets no &mut slice overlap another.
            unsafe {
                raw::$function(n, m, a.as_ptr(), a.len(), b.as_ptr(), b.len(), result.as_mut_ptr(), result.len()
                    $(, $pad.as_mut_ptr(), $pad.len())?)
            }
        }
    };
}

/// A safe wrapper over a function of one input, with a pad.
macro_rules! of_one_input {
    ($wrapper:ident, $function:ident) => {
        pub fn $wrapper(n: u32, m: u32, a: &[u32], result: &mut [u32], pad: &mut [u32]) -> u32 {
            // Sound: as above.
            unsafe {
                raw::$function(n, m, a.as_ptr(), a.len(), result.as_mut_ptr(), result.len(), pad.as_mut_ptr(), pad.len())
            }
        }
    };
}

of_two_inputs!(sum, sps_sum -> u32);
of_two_inputs!(difference, sps_difference -> u32);
of_two_inputs!(subset_product, sps_subset_product -> u64, pad);
of_two_inputs!(union_product, sps_union_product -> u32, pad);
of_two_inputs!(xor_product, sps_xor_product -> u32, pad);
of_two_inputs!(binomial_product, sps_binomial_product -> u32);
of_two_inputs!(composition, sps_composition -> u32, pad);
of_two_inputs!(projection, sps_projection -> u32, pad);
of_one_input!(exponential, sps_exponential);
of_one_input!(logarithm, sps_logarithm);
of_one_input!(inverse, sps_inverse);

/// Pointer and length of each.
fn parts(tables: [&mut [u32]; 3]) -> [(*mut u32, usize); 3] {
    tables.map(|table| (table.as_mut_ptr(), table.len()))
}

pub fn board_fresh(n: u32, m: u32, tables: [&mut [u32]; 3]) -> u32 {
    let [a, e, i] = parts(tables);
    // Sound: as above.
    unsafe { raw::sps_board_fresh(n, m, a.0, a.1, e.0, e.1, i.0, i.1) }
}

pub fn board_add(n: u32, m: u32, set: u32, weight: u32, tables: [&mut [u32]; 3]) -> u32 {
    let [a, e, i] = parts(tables);
    // Sound: as above.
    unsafe { raw::sps_board_add(n, m, set, weight, a.0, a.1, e.0, e.1, i.0, i.1) }
}

pub fn board_take(n: u32, m: u32, set: u32, weight: u32, tables: [&mut [u32]; 3]) -> u32 {
    let [a, e, i] = parts(tables);
    // Sound: as above.
    unsafe { raw::sps_board_take(n, m, set, weight, a.0, a.1, e.0, e.1, i.0, i.1) }
}

pub fn recipe(n: u32, m: u32, line: &[u8], tables: [&[u32]; 4], result: &mut [u32], pad: &mut [u32]) -> u32 {
    let (line, [a, b, c, d]) = ((line.as_ptr(), line.len()), tables.map(|table| (table.as_ptr(), table.len())));
    let (result, pad) = ((result.as_mut_ptr(), result.len()), (pad.as_mut_ptr(), pad.len()));
    // Sound: as above.
    unsafe {
        raw::sps_recipe(n, m, line.0, line.1, a.0, a.1, b.0, b.1, c.0, c.1, d.0, d.1, result.0, result.1, pad.0, pad.1)
    }
}

pub fn header_check(bytes: &[u8]) -> u64 {
    // Sound: as above.
    unsafe { raw::sps_header_check(bytes.as_ptr(), bytes.len()) }
}

pub fn read_table(bytes: &[u8], table: &mut [u32]) -> u64 {
    // Sound: as above.
    unsafe { raw::sps_read_table(bytes.as_ptr(), bytes.len(), table.as_mut_ptr(), table.len()) }
}

pub fn write_table(n: u32, m: u32, table: &[u32], buffer: &mut [u8]) -> u64 {
    // Sound: as above.
    unsafe { raw::sps_write_table(n, m, table.as_ptr(), table.len(), buffer.as_mut_ptr(), buffer.len()) }
}

pub fn write_sparse(n: u32, m: u32, table: &[u32], buffer: &mut [u8]) -> u64 {
    // Sound: as above.
    unsafe { raw::sps_write_sparse(n, m, table.as_ptr(), table.len(), buffer.as_mut_ptr(), buffer.len()) }
}

pub fn write_pages(n: u32, m: u32, table: &[u32], labels: &[u8], buffer: &mut [u8]) -> u64 {
    let (table, labels) = ((table.as_ptr(), table.len()), (labels.as_ptr(), labels.len()));
    // Sound: as above.
    unsafe { raw::sps_write_pages(n, m, table.0, table.1, labels.0, labels.1, buffer.as_mut_ptr(), buffer.len()) }
}
