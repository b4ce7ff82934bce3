// Sheets and files, sound and damaged, judged by both engines.

use crate::coverage::Coverage;
use crate::difference::Difference;
use crate::generate::{self, Kind};
use crate::host::Controller;
use crate::judging::{read_file, read_sheet, LONGEST};
use crate::lives::verdict;
use crate::proved::{self, Judgement};
use crate::random::Random;

pub fn judge(file: &[u8], sheet: &[u8]) -> Judgement {
    let judged_sheet = read_sheet(sheet);
    let host = Controller { sheet: judged_sheet.clone().unwrap_or_default() };
    Judgement {
        sheet: verdict(judged_sheet.map(|_| ()).map_err(|fault| fault.told())),
        file: verdict(read_file(&host, file).map(|_| ()).map_err(|fault| fault.told())),
    }
}

// About as many rows as a sheet may have, and some of the last of them say nothing.
fn many_rows(r: &mut Random) -> Vec<u8> {
    let count = r.between(62, 66);
    let mut bytes = Vec::new();
    for number in 0..count {
        let nothing = number > 60 && r.once_in(6);
        bytes.extend_from_slice(&[0x10, r.below(28) as u8, 0, 0, 0, 9, u8::from(!nothing)]);
    }
    bytes
}

pub fn input(seed: u64, case: u64, coverage: &mut Coverage) -> Result<(), Difference> {
    let mut r = Random::of(seed, 2, case);
    let r = &mut r;
    let sheet = generate::sheet(r);
    let mut sheet_bytes = generate::sheet_bytes(&sheet);
    let kind = match r.below(40) {
        0 => Kind::Large,
        1 | 2 => Kind::Growing,
        _ => Kind::Small,
    };
    // Mistakes of an operand, damage to bytes, both, neither, or no plan at all.
    let plan = r.below(20);
    let mistakes = if plan < 8 { r.pick(&[4, 8, 16, 60]) } else { 0 };
    let mut file = generate::file(r, &sheet, kind, mistakes);
    let other = sheet_bytes.clone();
    if (6..16).contains(&plan) {
        generate::damage(r, &mut file, &other);
    }
    if plan == 16 {
        file = generate::noise(r);
    }
    match r.below(20) {
        0..=3 => {}
        4 => sheet_bytes = generate::noise(r),
        5 => sheet_bytes = many_rows(r),
        6 => {
            // One more row or window, perhaps cut short.
            let more: &[u8] = if r.once_in(2) { &[0x10, 0, 0, 0, 0, 9, 0] } else { &[0x11, 0, 0, 0, 1, 0, 0, 0, 2, 0, 0, 0, 1] };
            let kept = if r.once_in(2) { more.len() } else { r.index(more.len()) };
            sheet_bytes.extend_from_slice(&more[..kept]);
        }
        _ => {
            // Half of the files keep a sound sheet, so that their sites are known.
            if r.once_in(2) {
                let copy = file.clone();
                generate::damage(r, &mut sheet_bytes, &copy);
            }
        }
    }
    let independent = judge(&file, &sheet_bytes);
    let proved = proved::check(&file, &sheet_bytes);
    coverage.inputs += 1;
    coverage.files[independent.file.number as usize] += 1;
    coverage.sheets[independent.sheet.number as usize] += 1;
    coverage.longest += u64::from(independent.file.number == 0 && file.len() == LONGEST);
    coverage.too_long += u64::from(file.len() > LONGEST);
    if independent == proved {
        return Ok(());
    }
    let what = format!("independent {independent:?}\nproved      {proved:?}");
    Err(Difference::of(seed, "inputs", case, &file, &sheet_bytes, &[], what))
}
