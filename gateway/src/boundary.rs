//! The archive's functions, called with slices. The archive proves each of
//! them for every content and length of what it is lent, and asks nothing
//! else of its caller.

mod archive {
    extern "C" {
        pub fn wirdhalef_load(
            file: *const u8,
            file_len: usize,
            site: *mut u8,
            site_len: usize,
        ) -> u8;
        pub fn wirdhalef_site_holds(site: *const u8, site_len: usize) -> u8;
        pub fn wirdhalef_receive(
            site: *mut u8,
            site_len: usize,
            frame: *const u8,
            frame_len: usize,
            out: *mut u8,
            out_len: usize,
            answer: *mut u8,
            answer_len: usize,
        ) -> u8;
        pub fn wirdhalef_receive_many(
            site: *mut u8,
            site_len: usize,
            frames: *const u8,
            frames_len: usize,
            out: *mut u8,
            out_len: usize,
        ) -> u64;
        pub fn wirdhalef_open_payload(frame: *const u8, frame_len: usize) -> u32;
        pub fn wirdhalef_build(
            site: *mut u8,
            site_len: usize,
            request: *const u8,
            request_len: usize,
            opens: *const u8,
            opens_len: usize,
            private: *const u8,
            private_len: usize,
            out: *mut u8,
            out_len: usize,
        ) -> u32;
    }
}

// In each block every pointer and length is that of a slice that lives
// through the call, and no two slices that can be written to overlap.

pub fn load(file: &[u8], site: &mut [u8]) -> u8 {
    unsafe { archive::wirdhalef_load(file.as_ptr(), file.len(), site.as_mut_ptr(), site.len()) }
}

pub fn site_holds(site: &[u8]) -> u8 {
    unsafe { archive::wirdhalef_site_holds(site.as_ptr(), site.len()) }
}

pub fn receive(site: &mut [u8], frame: &[u8], out: &mut [u8], answer: &mut [u8]) -> u8 {
    unsafe {
        archive::wirdhalef_receive(
            site.as_mut_ptr(),
            site.len(),
            frame.as_ptr(),
            frame.len(),
            out.as_mut_ptr(),
            out.len(),
            answer.as_mut_ptr(),
            answer.len(),
        )
    }
}

pub fn receive_many(site: &mut [u8], frames: &[u8], out: &mut [u8]) -> u64 {
    unsafe {
        archive::wirdhalef_receive_many(
            site.as_mut_ptr(),
            site.len(),
            frames.as_ptr(),
            frames.len(),
            out.as_mut_ptr(),
            out.len(),
        )
    }
}

pub fn open_payload(frame: &[u8]) -> u32 {
    unsafe { archive::wirdhalef_open_payload(frame.as_ptr(), frame.len()) }
}

pub fn build(site: &mut [u8], request: &[u8], opens: &[u8], private: &[u8], out: &mut [u8]) -> u32 {
    unsafe {
        archive::wirdhalef_build(
            site.as_mut_ptr(),
            site.len(),
            request.as_ptr(),
            request.len(),
            opens.as_ptr(),
            opens.len(),
            private.as_ptr(),
            private.len(),
            out.as_mut_ptr(),
            out.len(),
        )
    }
}
