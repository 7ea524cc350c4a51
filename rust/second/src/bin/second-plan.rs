//! Reads one sheet on standard input and writes the report headed `plan`, or its refusal.

fn main() -> std::io::Result<()> {
    second::program::run(second::plan)
}
