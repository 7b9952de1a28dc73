//! Whole calls: what comes before the first step, short calls lent much fuel, a conversion and its rollback, the two readers.

use super::measure::*;
use crate::engine;
use corefun::foreign;
use second::calls::{Call, ConvertCall, Direction, RunCall};
use second::draft::{nat, variable, Draft, Function};
use second::limits::{workspace, FUEL, VALUE_BYTES};
use second::readers::{ReadCall, Reader, Reading};
use second::samples::{library, longest_journal, nat_bytes};
use second::slow::left_nested;
use std::hint::black_box;

const MICROSECOND: f64 = 1000.0;

pub fn bench() -> Result<(), String> {
    bench_before_the_first_step()?;
    bench_lent_fuel()?;
    bench_journal()?;
    bench_readers()
}

/// With no fuel a call does all that comes before the first step, and is refused there.
fn bench_before_the_first_step() -> Result<(), String> {
    for (record, ancilla) in [(500, 500), (500, 250), (0, 0)] {
        let parameters = vec![nat(), nat()];
        let function = Function { parameters, result: nat(), body: variable(1) };
        let program = Draft { functions: vec![function] }.bytes();
        let call = run(&program, Direction::Forward, nat_bytes(ancilla), nat_bytes(record), 0);
        bench_given("Nats", &call)?;
    }
    bench_given("pairs nested to the left", &left_nested().call(0))
}

fn bench_given(what: &str, call: &RunCall) -> Result<(), String> {
    let (record, ancillae) = (call.value.len(), call.ancillae.len());
    bench_run(&format!("before the first step, {record} + {ancillae} bytes"), call, what)
}

/// Section 6's P1 and its way back, four steps each, with just that fuel and with the most, and the workspace for it.
fn bench_lent_fuel() -> Result<(), String> {
    let (program, two) = (library().bytes(), nat_bytes(2));
    for (direction, value) in [(Direction::Forward, nat_bytes(0)), (Direction::Backward, two.clone())] {
        for fuel in [4, FUEL] {
            let call = run(&program, direction, two.clone(), value.clone(), fuel);
            bench_run(&format!("{}, four steps lent fuel {fuel}", name(direction)), &call, "")?;
        }
        bench_beside_reading(&run(&program, direction, two.clone(), value, FUEL));
    }
    Ok(())
}

/// The same beside a plain reading of the workspace, which no clearing can do without.
fn bench_beside_reading(call: &RunCall) {
    let zeros = vec![0u8; call.workspace];
    let mut read = || {
        black_box(black_box(&zeros).iter().fold(0, |seen, byte| seen | byte));
    };
    let times = medians([&mut by_engine(call), &mut read]);
    print_times("the same beside reading its workspace once", times, "second: reading alone");
}

fn run(program: &[u8], direction: Direction, ancillae: Vec<u8>, value: Vec<u8>, fuel: u16) -> RunCall {
    let (program, workspace) = (program.to_vec(), workspace(fuel));
    RunCall { direction, workspace, output: VALUE_BYTES, fuel, function: 0, program, ancillae, value }
}

fn bench_run(name: &str, call: &RunCall, remark: &str) -> Result<(), String> {
    agree(&Call::Run(call.clone()))?;
    let times = medians([&mut by_engine(call), &mut by_second(Call::Run(call.clone()))]);
    print_times(name, times, remark);
    Ok(())
}

fn print_times(name: &str, [engine, second]: [f64; 2], remark: &str) {
    print_row(name, "us a call", engine / MICROSECOND, second / MICROSECOND, remark);
}

/// A conversion of a record of 203 bytes and its rollback, in a buffer of 2,048 bytes, with just the fuel that they need.
fn bench_journal() -> Result<(), String> {
    let (program, plus, two) = (library().bytes(), 0, nat_bytes(2));
    let mut space = vec![0; workspace(FUEL)];
    let mut journal = vec![0; 2048];
    foreign::open(&program, &nat_bytes(100), &mut space, &mut journal);
    let mut converted = journal.clone();
    let [_, _, _, steps] = foreign::convert(&program, plus, &two, FUEL, &mut space, &mut converted);
    let fuel = steps as u16;
    let workspace = workspace(fuel);
    let rollback = Call::Rollback { workspace, fuel, program: program.clone(), journal: converted };
    let (ancillae, function) = (two, plus);
    let convert = Call::Convert(ConvertCall { workspace, fuel, function, program, ancillae, journal });
    for (name, call) in [("convert", convert), ("rollback", rollback)] {
        agree(&call)?;
        let times = medians([&mut journal_by_engine(&call), &mut by_second(call.clone())]);
        print_times(&format!("{name}, {steps} steps"), times, "");
    }
    Ok(())
}

/// A conversion or a rollback by the engine, on the same journal each time.
fn journal_by_engine(call: &Call) -> impl FnMut() + '_ {
    let mut space = vec![0; workspace(FUEL)];
    let mut bytes = Vec::new();
    move || {
        match black_box(call) {
            Call::Convert(call) => {
                bytes.clone_from(&call.journal);
                let space = &mut space[..call.workspace];
                foreign::convert(&call.program, call.function, &call.ancillae, call.fuel, space, &mut bytes)
            }
            Call::Rollback { workspace, fuel, program, journal } => {
                bytes.clone_from(journal);
                foreign::rollback(program, *fuel, &mut space[..*workspace], &mut bytes)
            }
            _ => unreachable!("no call on a standing journal"),
        };
    }
}

/// The longest journal, read into an output that is just long enough.
fn bench_readers() -> Result<(), String> {
    let journal = longest_journal();
    let reading = Reading::of(&journal).ok_or("a journal that is malformed")?;
    for reader in Reader::BOTH {
        let call = ReadCall { reader, output: reading.length(reader), journal: journal.clone() };
        let name = format!("{}, {} conversions, {} bytes", reader.name(), reading.standing, journal.len());
        agree(&Call::Read(call.clone()))?;
        let mut output = vec![0; call.output];
        let mut engine = || {
            black_box(engine::see(black_box(&call), &mut output));
        };
        let times = medians([&mut engine, &mut by_second(Call::Read(call.clone()))]);
        print_times(&name, times, "");
    }
    Ok(())
}
