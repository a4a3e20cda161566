//! The functions of the static library. `crates/exports/gimbuka.h` says how each is called.

unsafe extern "C" {
    pub fn gimbuka_read_owl(
        text: *const u8,
        text_len: usize,
        out: *mut u32,
        out_len: usize,
        number: *mut u32,
        words: *mut usize,
    ) -> u32;
    pub fn gimbuka_read_vocabulary(v: *const u32, v_len: usize, number: *mut u32) -> u32;
    pub fn gimbuka_read_policy(
        v: *const u32,
        v_len: usize,
        p: *const u32,
        p_len: usize,
        number: *mut u32,
    ) -> u32;
    pub fn gimbuka_read_second_policy(
        v: *const u32,
        v_len: usize,
        q: *const u32,
        q_len: usize,
        number: *mut u32,
    ) -> u32;
    pub fn gimbuka_possible(
        v: *const u32,
        v_len: usize,
        p: *const u32,
        p_len: usize,
        work: *mut u32,
        work_len: usize,
        number: *mut u32,
    ) -> u32;
    pub fn gimbuka_compliance(
        v: *const u32,
        v_len: usize,
        p: *const u32,
        p_len: usize,
        q: *const u32,
        q_len: usize,
        work: *mut u32,
        work_len: usize,
        out: *mut u32,
        out_len: usize,
        number: *mut u32,
        combination: *mut u32,
        words: *mut usize,
    ) -> u32;
    pub fn gimbuka_equality(
        v: *const u32,
        v_len: usize,
        p: *const u32,
        p_len: usize,
        q: *const u32,
        q_len: usize,
        work: *mut u32,
        work_len: usize,
        out: *mut u32,
        out_len: usize,
        number: *mut u32,
        term: *mut u32,
        combination: *mut u32,
        words: *mut usize,
    ) -> u32;
    pub fn gimbuka_model_check(
        v: *const u32,
        v_len: usize,
        p: *const u32,
        p_len: usize,
        q: *const u32,
        q_len: usize,
        m: *const u32,
        m_len: usize,
        work: *mut u32,
        work_len: usize,
        number: *mut u32,
    ) -> u32;
    pub fn gimbuka_spell(
        v: *const u32,
        v_len: usize,
        p: *const u32,
        p_len: usize,
        work: *mut u32,
        work_len: usize,
        out: *mut u32,
        out_len: usize,
        number: *mut u32,
        words: *mut usize,
    ) -> u32;
    pub fn gimbuka_rehearse(
        seed: u32,
        classes: u32,
        terms: u32,
        out: *mut u32,
        out_len: usize,
        number: *mut u32,
        words: *mut usize,
    ) -> u32;
}
