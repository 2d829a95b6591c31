//! What Pi's search for families costs on the sheets that are hardest for it:
//! each line has a puzzle, its bytes, its answer and the milliseconds of one
//! call, the first on its sheets, with a tray of zeros that nothing has touched
//! yet.

#![forbid(unsafe_code)]

use std::time::Instant;
use vectors::hard::hard_sheets;

fn main() {
    println!("Pi on sheets made to be hard for its search: one call each, the first on its sheets");
    for case in hard_sheets().into_iter().map(|sheet| sheet.case) {
        let [s, t, f, i] = &case.sheets[..] else { unreachable!("a call of pi") };
        let bytes = case.sheets.iter().map(Vec::len).sum::<usize>();
        let mut tray = vec![0; migration::MOST_INSTANCE_BYTES];
        let start = Instant::now();
        let answer = match migration::pi_into(s, t, f, i, &mut tray) {
            Ok(length) => format!("{length} bytes"),
            Err(refusal) => format!("refused {}", refusal.number),
        };
        let spent = start.elapsed().as_secs_f64() * 1e3;
        println!("{:<66} {bytes:>5} bytes lent  {answer:<12} {spent:>9.1} ms", case.name);
    }
}
