//! Reads one sheet on standard input and writes a line for each site in the order taken: its number,
//! tab, its name; or its refusal.

fn main() -> std::io::Result<()> {
    second::program::run(second::order_lines)
}
