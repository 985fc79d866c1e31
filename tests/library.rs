//! The proved library's functions, as C declares them, and the numbers in which it answers.

/// Number, line and field.
pub type Refusal = (u32, u32, u32);

/// A refusal in one number.
pub fn code(r: Refusal) -> u64 {
    ((r.0 as u64) << 40) + ((r.1 as u64) << 20) + r.2 as u64
}

/// A total, separations and positions in the eighteen places of a placement.
pub fn numbers(total: u32, separations: &[u32], positions: &[u32]) -> [u32; 18] {
    let mut all = [0; 18];
    all[0] = total;
    all[1..=separations.len()].copy_from_slice(separations);
    all[9..9 + positions.len()].copy_from_slice(positions);
    all
}

/// The refusal that a line says, if it is three numbers.
pub fn refusal_in(line: &str) -> Option<Refusal> {
    let said: Option<Vec<u32>> = line.split_whitespace().map(|w| w.parse().ok()).collect();
    said.filter(|said| said.len() == 3).map(|said| (said[0], said[1], said[2]))
}

/// The placement of a row's line, or the refusal that it says.
pub fn placement_in(line: &str) -> Result<[u32; 18], Refusal> {
    if let Some(r) = refusal_in(line) {
        return Err(r);
    }
    let row: Vec<u32> = line.split_whitespace().skip(2).map(|w| w.parse().expect("a number")).collect();
    let k = row.len() / 2 - 1;
    Ok(numbers(row[0], &row[1..=k], &row[k + 1..]))
}

#[link(name = "nabetsu", kind = "static")]
extern "C" {
    fn nabetsu_write_table(text: *const u8, text_len: usize, output: *mut u8, output_len: usize) -> u64;
    fn nabetsu_least_total(text: *const u8, text_len: usize, spread: u32) -> u64;
    fn nabetsu_place_total(text: *const u8, text_len: usize, spread: u32, total: u32, output: *mut u32, output_len: usize) -> u64;
    fn nabetsu_write_page(text: *const u8, text_len: usize, spread: u32, channel: u32, output: *mut u8, output_len: usize) -> u64;
    fn nabetsu_try_placement(text: *const u8, text_len: usize, spread: u32, placement: *const u32, placement_len: usize) -> u64;
    fn nabetsu_session_total(steps: *const u8, steps_len: usize, spread: u32) -> u64;
    fn nabetsu_session_place(steps: *const u8, steps_len: usize, spread: u32, total: u32, output: *mut u32, output_len: usize) -> u64;
}

/// The table's length, or the refusal's code.
pub fn write_table(text: &[u8], output: &mut [u8]) -> u64 {
    unsafe { nabetsu_write_table(text.as_ptr(), text.len(), output.as_mut_ptr(), output.len()) }
}

/// The least total, or the refusal's code.
pub fn least_total(text: &[u8], spread: u32) -> u64 {
    unsafe { nabetsu_least_total(text.as_ptr(), text.len(), spread) }
}

/// 0 with the stated total, eight separations and nine positions in the output and zeros behind them, or the refusal's code.
pub fn place_in(text: &[u8], spread: u32, total: u32, output: &mut [u32]) -> u64 {
    unsafe { nabetsu_place_total(text.as_ptr(), text.len(), spread, total, output.as_mut_ptr(), output.len()) }
}

/// The page's length, or the refusal's code.
#[allow(dead_code)]
pub fn write_page(text: &[u8], spread: u32, channel: u32, output: &mut [u8]) -> u64 {
    unsafe { nabetsu_write_page(text.as_ptr(), text.len(), spread, channel, output.as_mut_ptr(), output.len()) }
}

/// 1 for a legal placement, 2 for another or for other numbers than seventeen, or the refusal's code.
pub fn try_numbers(text: &[u8], spread: u32, placement: &[u32]) -> u64 {
    unsafe { nabetsu_try_placement(text.as_ptr(), text.len(), spread, placement.as_ptr(), placement.len()) }
}

/// 1 for a legal placement of eight separations and nine positions, 2 for another, or the refusal's code.
pub fn try_placement(text: &[u8], spread: u32, placement: &[u32; 17]) -> u64 {
    try_numbers(text, spread, placement)
}

/// The least total of the session after a text of steps, or the refusal's code.
pub fn session_total(steps: &[u8], spread: u32) -> u64 {
    unsafe { nabetsu_session_total(steps.as_ptr(), steps.len(), spread) }
}

/// The same session's placement for a stated total, as that of a stack.
pub fn session_place_in(steps: &[u8], spread: u32, total: u32, output: &mut [u32]) -> u64 {
    unsafe { nabetsu_session_place(steps.as_ptr(), steps.len(), spread, total, output.as_mut_ptr(), output.len()) }
}
