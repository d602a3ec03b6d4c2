//! Judges a log from Rust, and tells why the answer is no.

#[repr(C)]
#[derive(Debug, Default)]
struct Answer {
    why: u32,
    rule: u32,
    inst: u32,
    row: u32,
    process: u32,
}

#[repr(C)]
#[derive(Debug, Default)]
struct Fault {
    text: u32,
    what: u32,
    place: u32,
    rule: u32,
    inst: u32,
    process: u32,
}

extern "C" {
    fn kt_check(log: *const u8, log_len: usize, certificates: *const u8, certificates_len: usize, answer: *mut Answer, fault: *mut Fault) -> u32;
}

/// The answer to a log with its certificates: none for a yes, else what the no names.
fn check(log: &[u8], certificates: &[u8]) -> Result<Option<Answer>, Fault> {
    let (mut answer, mut fault) = (Answer::default(), Fault::default());
    // The address of a slice is never null, and the two structs are its own.
    let status = unsafe { kt_check(log.as_ptr(), log.len(), certificates.as_ptr(), certificates.len(), &mut answer, &mut fault) };
    match status {
        0 => Ok(None),
        1 => Ok(Some(answer)),
        _ => Err(fault),
    }
}

fn main() {
    let log = b"sent,0,1,5\nreceived,1,0,1\nbegan,1,1,checkpoint\ntook,1,1,-\ndecided,1,1,commit\nclosed,1,1,-\n";
    println!("{:?}", check(log, b"cert,1,checkpoint,1,commit\nmember,1,1,0,-\n"));
    println!("{:?}", check(log, b"cert,1\n"));
}

/* It prints:
Ok(Some(Answer { why: 6, rule: 0, inst: 1, row: 5, process: 0 }))
Err(Fault { text: 2, what: 4, place: 1, rule: 0, inst: 0, process: 0 })
*/
