fn main() -> std::io::Result<()> {
    baseline::program::main(baseline::plan::plan)
}
