// A difference between the two engines, told in full.

use crate::proved::Request;
use crate::run::Call;

pub struct Difference {
    text: String,
}

pub fn hex(bytes: &[u8]) -> String {
    bytes.iter().map(|byte| format!("{byte:02x}")).collect::<Vec<_>>().join(" ")
}

// A call as a line of a script.
pub fn line(request: &Request) -> String {
    match request.call() {
        Some(Call::Go(number)) => format!("go {number}"),
        Some(Call::Answer(ticket, value)) => format!("answer {ticket} {value}"),
        Some(Call::Wait(ticks)) => format!("wait {ticks}"),
        None => format!("# no call: kind {} number {} value {}", request.kind, request.number, request.value),
    }
}

impl Difference {
    pub fn of(seed: u64, part: &str, case: u64, file: &[u8], sheet: &[u8], calls: &[Request], what: String) -> Difference {
        let mut text = format!("difference in {part}, seed {seed}, case {case}\n{what}\nfile ({} bytes): {}\nsheet ({} bytes): {}\n", file.len(), hex(file), sheet.len(), hex(sheet));
        for request in calls {
            text.push_str(&line(request));
            text.push('\n');
        }
        Difference { text }
    }
}

impl std::fmt::Display for Difference {
    fn fmt(&self, out: &mut std::fmt::Formatter) -> std::fmt::Result {
        out.write_str(&self.text)
    }
}
