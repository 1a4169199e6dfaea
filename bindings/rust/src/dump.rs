//! Lines of text.
use crate::raw;
use crate::Refusal;
use crate::TEXT_MOST;

/// What mesh-dump prints of a line of hex, without the newline, at the front of a lent slice; [`Refusal::OutputShort`]. A line or a frame
/// that is refused is text too.
pub fn dump_line(line: &[u8], out: &mut [u8]) -> Result<usize, Refusal> {
    raw::dump_line(line, out)
}

/// The same of a frame.
pub fn dump_frame(frame: &[u8], out: &mut [u8]) -> Result<usize, Refusal> {
    raw::dump_frame(frame, out)
}

/// What [`dump_line`] writes, allocated.
pub fn dump_line_text(line: &[u8]) -> Result<String, Refusal> {
    text(line, dump_line)
}

/// What [`dump_frame`] writes, allocated.
pub fn dump_frame_text(frame: &[u8]) -> Result<String, Refusal> {
    text(frame, dump_frame)
}

fn text(input: &[u8], dump: fn(&[u8], &mut [u8]) -> Result<usize, Refusal>) -> Result<String, Refusal> {
    let mut out = [0; TEXT_MOST];
    let length = dump(input, &mut out)?;
    Ok(String::from_utf8_lossy(crate::part(&out, 0, length as u64)?).into_owned())
}
