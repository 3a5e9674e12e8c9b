#[path = "../link_archives.rs"]
mod link_archives;

fn main() {
    link_archives::link_archives("the proved gate is not built", &["valve_gate"]);
}
