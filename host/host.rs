// Prints the listing of the sheet in a file.
use std::io::Write;
use std::process::ExitCode;

const PLACE: usize = 32768;

unsafe extern "C" {
    fn poychare_listing(sheet: *const u8, sheet_length: usize, place: *mut u8, place_length: usize) -> i64;
}

// The part may have both slices: they do not overlap, and Rust never makes them of null pointers.
fn listing(sheet: &[u8], place: &mut [u8]) -> Option<usize> {
    let answer = unsafe { poychare_listing(sheet.as_ptr(), sheet.len(), place.as_mut_ptr(), place.len()) };
    usize::try_from(answer).ok()
}

fn main() -> ExitCode {
    let Some(path) = std::env::args_os().nth(1) else {
        eprintln!("usage: host SHEET");
        return ExitCode::from(2);
    };
    let sheet = match std::fs::read(path) {
        Ok(sheet) => sheet,
        Err(error) => {
            eprintln!("{error}");
            return ExitCode::from(2);
        }
    };
    let mut place = vec![0; PLACE];
    if listing(&sheet, &mut place[1..]).is_some() {
        eprintln!("a place that is too short was not refused");
        return ExitCode::FAILURE;
    }
    match listing(&sheet, &mut place) {
        Some(length) if std::io::stdout().write_all(&place[..length]).is_ok() => ExitCode::SUCCESS,
        _ => ExitCode::FAILURE,
    }
}
