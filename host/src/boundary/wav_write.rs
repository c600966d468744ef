//! WAV files written: a whole one, its header and its samples apart, and how long one is.

#[rustfmt::skip]
extern "C" {
    fn fugnadri_wav_write(form: u8, kind: u8, channels: u8, rate: u32, samples: *const f64, samples_len: usize, out: *mut u8, out_len: usize, written: &mut usize) -> u8;
    fn fugnadri_wav_write_f32(form: u8, kind: u8, channels: u8, rate: u32, samples: *const f32, samples_len: usize, out: *mut u8, out_len: usize, written: &mut usize) -> u8;
    fn fugnadri_wav_file_length(kind: u8, channels: u8, count: usize) -> usize;
    fn fugnadri_wav_header_length(kind: u8, count: usize) -> usize;
    fn fugnadri_wav_header(form: u8, kind: u8, channels: u8, rate: u32, count: usize, out: *mut u8, out_len: usize) -> u8;
    fn fugnadri_wav_store(kind: u8, samples: *const f64, samples_len: usize, out: *mut u8, out_len: usize) -> u8;
    fn fugnadri_wav_store_f32(kind: u8, samples: *const f32, samples_len: usize, out: *mut u8, out_len: usize) -> u8;
}

/// The refusal's number, and the file's length. A form of 0 is RF64 past RIFF, 1 is BW64.
pub fn wav_write(form: u8, kind: u8, channels: u8, rate: u32, samples: &[f64], out: &mut [u8]) -> (u8, usize) {
    let mut written = usize::MAX;
    let (at, to) = (samples.as_ptr(), out.as_mut_ptr());
    let number =
        unsafe { fugnadri_wav_write(form, kind, channels, rate, at, samples.len(), to, out.len(), &mut written) };
    (number, written)
}

pub fn wav_write_f32(form: u8, kind: u8, channels: u8, rate: u32, samples: &[f32], out: &mut [u8]) -> (u8, usize) {
    let mut written = usize::MAX;
    let (at, to) = (samples.as_ptr(), out.as_mut_ptr());
    let number =
        unsafe { fugnadri_wav_write_f32(form, kind, channels, rate, at, samples.len(), to, out.len(), &mut written) };
    (number, written)
}

/// How long a file of `count` samples is, over all channels; 0 where it is refused whatever the rate.
pub fn wav_file_length(kind: u8, channels: u8, count: usize) -> usize {
    unsafe { fugnadri_wav_file_length(kind, channels, count) }
}

/// How many bytes stand before `count` samples; 0 for an unknown kind.
pub fn wav_header_length(kind: u8, count: usize) -> usize {
    unsafe { fugnadri_wav_header_length(kind, count) }
}

pub fn wav_header(form: u8, kind: u8, channels: u8, rate: u32, count: usize, out: &mut [u8]) -> u8 {
    unsafe { fugnadri_wav_header(form, kind, channels, rate, count, out.as_mut_ptr(), out.len()) }
}

pub fn wav_store(kind: u8, samples: &[f64], out: &mut [u8]) -> u8 {
    unsafe { fugnadri_wav_store(kind, samples.as_ptr(), samples.len(), out.as_mut_ptr(), out.len()) }
}

pub fn wav_store_f32(kind: u8, samples: &[f32], out: &mut [u8]) -> u8 {
    unsafe { fugnadri_wav_store_f32(kind, samples.as_ptr(), samples.len(), out.as_mut_ptr(), out.len()) }
}
