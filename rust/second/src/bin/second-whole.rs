//! Reads one sheet on standard input and writes the report headed `whole`, or its refusal.

fn main() -> std::io::Result<()> {
    second::program::run(second::whole)
}
