//! Reads one range sheet on standard input and writes the report headed `span`, or its refusal.

fn main() -> std::io::Result<()> {
    second::program::run(second::ranges)
}
