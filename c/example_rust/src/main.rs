//! example [BUNDLE [ROOM]]: prints the text of a bundle (of standard input, if none is named), and ends with the status. ROOM is how many
//! bytes the first call may write: 4096, if it isn't said.
use std::io::{self, Read, Write};
use std::process::ExitCode;

extern "C" {
    fn cedargate_serve(
        bundle: *const u8,
        n: usize,
        room: *mut u8,
        room_n: usize,
        needed: *mut usize,
    ) -> i32;
}

const NO_ROOM: i32 = 5;

/// The status of a bundle, or 4 out of memory, and its text. The first call may write so many bytes.
fn serve(bundle: &[u8], room: usize) -> (i32, Vec<u8>) {
    let mut text = vec![0; room];
    loop {
        let mut needed = 0;
        // The pointers of slices are never null, and the call keeps to their lengths.
        let status = unsafe {
            cedargate_serve(bundle.as_ptr(), bundle.len(), text.as_mut_ptr(), text.len(), &mut needed)
        };
        text.resize(needed, 0);
        if status != NO_ROOM {
            return (status, text);
        }
    }
}

fn main() -> io::Result<ExitCode> {
    let mut words = std::env::args().skip(1);
    let mut bundle = Vec::new();
    match words.next() {
        Some(path) => bundle = std::fs::read(path)?,
        None => io::stdin().read_to_end(&mut bundle).map(drop)?,
    }
    let room = words.next().and_then(|word| word.parse().ok()).unwrap_or(4096);
    let (status, text) = serve(&bundle, room);
    io::stdout().write_all(&text)?;
    Ok(ExitCode::from(status as u8))
}
