//! Which pages has a program used? A program in Rust that is built outside the repository, with the
//! installed storage unit. The control program gives pages of 4096 bytes to a program that runs on
//! the other processor, and finds out by RRBE which of them it has referenced and changed.

use std::process::ExitCode;

use storage_unit::{Completed, Machine, Processor, Reason, Refusal, Settings};

const PAGE: u32 = 4096;
const PAGES: u32 = 4;
/// PSW key of the program, and the access control of its own pages.
const PROGRAM_KEY: u8 = 5;

/// The processors.
const CONTROL: u32 = 0;
const PROGRAM: u32 = 1;

/// Prints an answer: in words, and where there is one the place.
fn report(what: &str, answer: Result<Completed, Refusal>) {
    match answer {
        Ok(_) => println!("  {what}: completed"),
        Err(Refusal {
            reason: reason @ (Reason::Addressing | Reason::Protection),
            place,
        }) => println!("  {what}: {reason}, first at byte {place}"),
        Err(Refusal { reason, .. }) => println!("  {what}: {reason}"),
    }
}

/// The pages at 4096 and 8192 are the program's. It may fetch from the one at 12288.
fn give_pages(machine: &mut Machine) -> Result<(), Refusal> {
    for page in 0..PAGES {
        let access_control = if page == 1 || page == 2 {
            PROGRAM_KEY
        } else {
            9
        };
        let key = u32::from(access_control << 4);
        machine.cpu(CONTROL).sske(key, page * PAGE)?;
    }
    machine.processors[PROGRAM as usize] = Processor {
        psw_key: PROGRAM_KEY,
        problem: true,
        ..Processor::default()
    };
    Ok(())
}

fn run_program(machine: &mut Machine) {
    let total = [0x00, 0x01, 0x23, 0x4C];
    let mut bytes = [0; 4];
    let mut program = machine.cpu(PROGRAM);
    report("store of 4 bytes at 8190", program.store(8190, &total));
    report(
        "fetch of 4 bytes at 12288",
        program.fetch(12288, &mut bytes),
    );
    report("store of 4 bytes at 12286", program.store(12286, &total));
    report(
        "fetch of 4 bytes at 16381",
        program.fetch(16381, &mut bytes),
    );
    report("SET PREFIX", program.set_prefix(8192));
}

/// RRBE leaves 2 x reference bit + change bit as the condition code.
fn show_page(machine: &mut Machine, page: u32) -> Result<(), Refusal> {
    machine.cpu(CONTROL).rrbe(page * PAGE)?;
    let code = machine.processors[CONTROL as usize].code;
    println!(
        "  page at {}: {}referenced, {}changed",
        page * PAGE,
        if code & 2 != 0 { "" } else { "not " },
        if code & 1 != 0 { "" } else { "not " }
    );
    Ok(())
}

fn show_pages() -> Result<(), Refusal> {
    let settings = Settings {
        extensions: true,
        ..Settings::default()
    };
    let mut machine = Machine::new(settings, (PAGES * PAGE) as usize)?;
    give_pages(&mut machine)?;
    println!("A program in problem state with PSW key 5:");
    run_program(&mut machine);
    println!("The control program after it:");
    for page in 0..PAGES {
        show_page(&mut machine, page)?;
    }
    report("STORE PREFIX of processor 2", machine.cpu(2).store_prefix());
    Ok(())
}

fn main() -> ExitCode {
    if storage_unit::version() != storage_unit::VERSION {
        println!(
            "The library is not of the crate's version, {}.",
            storage_unit::VERSION
        );
        return ExitCode::FAILURE;
    }
    match show_pages() {
        Ok(()) => ExitCode::SUCCESS,
        Err(refusal) => {
            eprintln!("{refusal}");
            ExitCode::FAILURE
        }
    }
}
