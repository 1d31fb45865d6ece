fn main() {
    std::process::exit(hobbychair::command_line::main());
}
