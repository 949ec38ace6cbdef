fn main() -> std::io::Result<()> {
    paper::program::main(paper::sheet::sheet)
}
