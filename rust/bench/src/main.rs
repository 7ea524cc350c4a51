//! Measures the proved planner beside the second one.
//!
//! Prints tables in Markdown, or puts them into a file between the lines `<!-- measured -->` and
//! `<!-- end -->`. The option `--help` tells the others.

mod growth;
mod judge;
mod library;
mod log;
mod machine;
mod program;
mod regions;

use library::{Libraries, time, write_heading};
use program::Input;
use second::REPORT_BYTES;
use sheets::{Edition, Layout, Names, Network, Random, SHAPES, SITES, Shape, Sizes, surveys};
use std::fmt::Write;
use std::path::PathBuf;
use std::process::ExitCode;

/// The page that `--help` prints.
const HELP: &str = include_str!("../help");

struct Options {
    /// The folder of the proved programs.
    programs: PathBuf,
    /// The file that the tables are put into.
    into: Option<PathBuf>,
    /// How often each library is timed on a sheet.
    rounds: usize,
    /// How often each program is run.
    runs: usize,
}

fn main() -> ExitCode {
    let options = match options() {
        Ok(Some(options)) => options,
        Ok(None) => {
            print!("{HELP}");
            return ExitCode::SUCCESS;
        }
        Err(text) => {
            eprintln!("bench: {text}; --help says more");
            return ExitCode::from(2);
        }
    };
    let outcome = tables(&options)
        .map_err(|error| error.to_string())
        .and_then(|text| publish(&text, &options));
    if let Err(text) = outcome {
        eprintln!("bench: {text}");
        return ExitCode::FAILURE;
    }
    ExitCode::SUCCESS
}

/// The options, or none if the page about them is asked for.
fn options() -> Result<Option<Options>, String> {
    let mut options = Options {
        programs: PathBuf::from("target/bin"),
        into: None,
        rounds: 201,
        runs: 501,
    };
    let mut arguments = std::env::args().skip(1);
    while let Some(option) = arguments.next() {
        if ["-h", "--help"].contains(&option.as_str()) {
            return Ok(None);
        }
        let value = arguments.next();
        let file = || value.as_ref().map(PathBuf::from);
        let file = || file().ok_or_else(|| format!("{option} needs a name"));
        let count = || value.as_ref().and_then(|value| value.parse().ok());
        let count = || count().filter(|&count| count > 0);
        let count = || count().ok_or_else(|| format!("{option} needs a number from 1 on"));
        match option.as_str() {
            "--programs" => options.programs = file()?,
            "--into" => options.into = Some(file()?),
            "--rounds" => options.rounds = count()?,
            "--runs" => options.runs = count()?,
            _ => return Err(format!("there is no option {option}")),
        }
    }
    Ok(Some(options))
}

/// Prints the tables, or puts them into the file that was named.
fn publish(tables: &str, options: &Options) -> Result<(), String> {
    const START: &str = "<!-- measured -->\n";
    const END: &str = "<!-- end -->\n";
    let Some(file) = &options.into else {
        print!("{tables}");
        return Ok(());
    };
    let told = |error: std::io::Error| format!("{}: {error}", file.display());
    let text = std::fs::read_to_string(file).map_err(told)?;
    let (before, rest) = text
        .split_once(START)
        .ok_or("the file has no place for tables")?;
    let (_, after) = rest
        .split_once(END)
        .ok_or("the file has no place for tables")?;
    let text = format!("{before}{START}\n{tables}\n{END}{after}");
    std::fs::write(file, text).map_err(told)
}

/// The largest sheet of a shape with a number of sites: long names and large sizes.
fn largest_sheet(shape: Shape, sites: usize) -> Vec<u8> {
    let mut random = Random::new(sites as u64);
    let network = Network::random(shape, sites, Sizes::Large, Names::Long, &mut random);
    network.sheet(Layout::Mixed, &mut random)
}

/// The sheet of the smallest tree.
const TWO_SITES: &[u8] = b"network\t1\nN\ta\nN\tb\nL\ta\tb\t4\n";

/// The smallest sheet that has a joint.
const THREE_SITES: &[u8] = b"network\t1\nN\ta\nN\tb\nN\tc\nL\ta\tb\t4\nL\ta\tc\t3\n";

/// All tables.
fn tables(options: &Options) -> Result<String, Box<dyn std::error::Error>> {
    let mut text = String::new();
    let rounds = options.rounds;
    for line in machine::description() {
        writeln!(text, "- {line}")?;
    }
    let units = [
        ("in halves", &library::IN_HALVES),
        ("in whole circuits", &library::IN_CIRCUITS),
    ];
    for (unit, libraries) in units {
        library_tables(&mut text, unit, libraries, rounds)?;
    }
    other_buffers_table(&mut text, units, rounds)?;
    log::tables(&mut text, rounds)?;
    regions::table(&mut text, rounds)?;
    ranges_table(&mut text, rounds)?;
    judge::table(&mut text, rounds)?;
    program_table(&mut text, options)?;
    Ok(text)
}

/// The tables of the largest trees of each edition, and of growth.
fn library_tables(
    text: &mut String,
    unit: &str,
    libraries: &Libraries,
    rounds: usize,
) -> std::fmt::Result {
    let measured = SHAPES.map(|shape| {
        growth::SITES.map(|sites| {
            let sheet = largest_sheet(shape, sites);
            time(libraries, &sheet, REPORT_BYTES, rounds)
        })
    });

    for sites in Edition::ALL.map(Edition::sites) {
        let title = format!("One plan {unit} of {sites} sites");
        write_heading(text, &title, ["shape", "sheet bytes", "report bytes"])?;
        for (shape, by_sites) in SHAPES.iter().zip(&measured) {
            let mut counts = growth::SITES.iter().zip(by_sites);
            if let Some((_, times)) = counts.find(|&(&count, _)| count == sites) {
                times.write_row(text, shape.name())?;
            }
        }
    }

    writeln!(
        text,
        "\n### Growth of a plan {unit} with the number of sites, in microseconds\n"
    )?;
    growth::table(text, growth::SITES, 2, &measured)
}

/// The table of the smallest tree, and of buffers that are too short.
fn other_buffers_table(
    text: &mut String,
    units: [(&str, &Libraries); 2],
    rounds: usize,
) -> std::fmt::Result {
    let title = "Two sites, and buffers that are too short";
    write_heading(
        text,
        title,
        ["sheet", "sheet bytes", "report or buffer bytes"],
    )?;
    for (unit, libraries) in units {
        let two_sites = time(libraries, TWO_SITES, REPORT_BYTES, rounds);
        two_sites.write_row(text, &format!("two sites, {unit}"))?;
        let three_sites = time(libraries, THREE_SITES, REPORT_BYTES, rounds);
        three_sites.write_row(text, &format!("three sites, {unit}"))?;
        for shape in [Shape::Star, Shape::Path, Shape::Prufer] {
            let sheet = largest_sheet(shape, SITES);
            let short = library::short_buffer(libraries, &sheet);
            let title = format!(
                "{} of {SITES} sites, {unit}, buffer too short",
                shape.name()
            );
            time(libraries, &sheet, short, rounds).write_row(text, &title)?;
        }
    }
    Ok(())
}

/// The table of range sheets.
fn ranges_table(text: &mut String, rounds: usize) -> std::fmt::Result {
    let title = format!("Ranges of {SITES} sites");
    write_heading(text, &title, ["shape", "sheet bytes", "report bytes"])?;
    for shape in SHAPES {
        let sheet = surveys::largest(shape, SITES, &mut Random::new(1));
        let times = time(&library::OF_RANGES, &sheet, REPORT_BYTES, rounds);
        times.write_row(text, shape.name())?;
    }
    Ok(())
}

fn program_table(text: &mut String, options: &Options) -> Result<(), Box<dyn std::error::Error>> {
    let [planners, desks, judges] = ["plan", "replay", "judge"].map(|name| {
        let this = std::env::current_exe().unwrap_or_default();
        let second = this.with_file_name(format!("second-{name}"));
        [options.programs.join(name), second]
    });
    let mut programs = [&planners, &desks, &judges].into_iter().flatten();
    if let Some(missing) = programs.find(|program| !program.is_file()) {
        return Err(format!("{} is missing", missing.display()).into());
    }
    let sheets = [
        ("two sites", TWO_SITES.to_vec()),
        ("star of 384 sites", largest_sheet(Shape::Star, SITES)),
        ("path of 384 sites", largest_sheet(Shape::Path, SITES)),
        (
            "random labelled tree of 384 sites",
            largest_sheet(Shape::Prufer, SITES),
        ),
    ];
    let file = |kind| std::env::temp_dir().join(format!("bench-{}.{kind}", std::process::id()));
    let [sheet_file, log_file] = ["sheet", "log"].map(file);
    let row = |text: &mut String, title, programs, input: &Input| {
        program_row(text, title, programs, input, options.runs)
    };

    writeln!(text, "\n### Programs, from start to end\n")?;
    writeln!(
        text,
        "| sheet | proved, µs | second, µs | ratio | proved, peak KiB | second, peak KiB \
         | proved, stack KiB | second, stack KiB |"
    )?;
    writeln!(text, "|---|{}", "---:|".repeat(7))?;
    for (title, sheet) in sheets {
        std::fs::write(&sheet_file, sheet)?;
        row(text, title, &planners, &Input::Sheet(sheet_file.clone()))?;
    }
    let case = log::largest(Shape::Prufer);
    std::fs::write(&sheet_file, case.sheet)?;
    std::fs::write(&log_file, case.log)?;
    let files = [sheet_file.clone(), log_file.clone()];
    let title = "the same shape, a log of 4,096 lines";
    row(text, title, &desks, &Input::Files(files.clone()))?;
    let case = judge::largest(Shape::Prufer).expect("it has many ends");
    std::fs::write(&sheet_file, case.sheet)?;
    std::fs::write(&log_file, case.plan)?;
    let title = "the same shape, a plan of 1,024 lines";
    row(text, title, &judges, &Input::Files(files))?;
    std::fs::remove_file(&sheet_file)?;
    std::fs::remove_file(&log_file)?;
    Ok(())
}

/// The line of two programs with one input.
fn program_row(
    text: &mut String,
    title: &str,
    programs: &[PathBuf; 2],
    input: &Input,
    runs: usize,
) -> Result<(), Box<dyn std::error::Error>> {
    let programs = programs.each_ref().map(PathBuf::as_path);
    let [proved, second] = program::times(programs, input, runs)?;
    let [proved_memory, second_memory] = programs.map(|program| program::memory(program, input));
    let (proved_memory, second_memory) = (proved_memory?, second_memory?);
    writeln!(
        text,
        "| {title} | {proved:.0} | {second:.0} | {:.2} | {} | {} | {} | {} |",
        proved / second,
        proved_memory.peak,
        second_memory.peak,
        proved_memory.stack,
        second_memory.stack
    )?;
    Ok(())
}
