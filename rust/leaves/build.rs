#[path = "../link_archives.rs"]
mod link_archives;

fn main() {
    let libraries = ["test_hash", "test_leaves", "test_mac"];
    link_archives::link_archives("the proved leaves are not built", &libraries);
}
