//! The calls into the static library, and the only unsafe code here.

/// What a call lends. Slices that are borrowed so overlap nowhere. Those that the
/// library only reads are lent as if it might write, so that a caller may look whether
/// it did.
pub struct Lent<'a> {
    pub belts: &'a mut [u8],
    pub pairs: &'a mut [u8],
    pub limits: &'a mut [u8],
    pub flow: &'a mut [u8],
    pub length: &'a mut [u8],
    pub answer: &'a mut [u8],
    pub counts: &'a mut [u8],
}

/// A function for each call that solves: after numbers, and lists of their own, all of
/// them take the same, and then the tables of their own.
macro_rules! calls {
    ($($name:ident, $symbol:ident ($($number:ident),*; $($list:ident),*; $($own:ident),*);)*) => {
        #[link(name = "vithmork", kind = "static")]
        extern "C" {
            $(fn $symbol(
                $($number: u64,)*
                $($list: *const u8, _: usize,)*
                belts: *const u8,
                belts_len: usize,
                pairs: *const u8,
                pairs_len: usize,
                limits: *const u8,
                limits_len: usize,
                flow: *mut u8,
                flow_len: usize,
                length: *mut u8,
                length_len: usize,
                answer: *mut u8,
                answer_len: usize,
                counts: *mut u8,
                counts_len: usize,
                $($own: *mut u8, _: usize),*
            ) -> u64;)*
        }

        $(pub fn $name(
            $($number: u64,)*
            $($list: &mut [u8],)*
            lent: Lent,
            $($own: &mut [u8]),*
        ) -> u64 {
            // SAFETY: the library asks of its caller only that each pointer and count be
            // a slice of its own, and borrowed slices are.
            unsafe {
                $symbol(
                    $($number,)*
                    $($list.as_mut_ptr().cast_const(), $list.len(),)*
                    lent.belts.as_mut_ptr().cast_const(),
                    lent.belts.len(),
                    lent.pairs.as_mut_ptr().cast_const(),
                    lent.pairs.len(),
                    lent.limits.as_mut_ptr().cast_const(),
                    lent.limits.len(),
                    lent.flow.as_mut_ptr(),
                    lent.flow.len(),
                    lent.length.as_mut_ptr(),
                    lent.length.len(),
                    lent.answer.as_mut_ptr(),
                    lent.answer.len(),
                    lent.counts.as_mut_ptr(),
                    lent.counts.len(),
                    $($own.as_mut_ptr(), $own.len()),*
                )
            }
        })*
    };
}

calls! {
    solve, vithmork_solve(n, q, office;;);
    whole, vithmork_whole(n, q, office;; totes);
    site, vithmork_site(office; floors;);
}
