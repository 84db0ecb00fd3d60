//! Decides which tests of a binary to run: `runner METADATA.json FILTERSET`.

use nextest_filtering_proved::*;

fn main() -> Result<(), Box<dyn std::error::Error>> {
    let metadata = std::fs::read(std::env::args().nth(1).ok_or("no metadata")?)?;
    let context = ParseContext::from_cargo_metadata(&metadata)?;
    let text = std::env::args().nth(2).ok_or("no filterset")?;
    let filterset = Filterset::parse(text, &context, FiltersetKind::Test, &KnownGroups::default())?;
    let binary = BinaryQuery {
        package_id: "path+file:///w/parser#0.1.0",
        binary_id: "parser",
        binary_name: "parser",
        kind: "lib",
        platform: BuildPlatform::Target,
    };
    if filterset.matches_binary(&binary)? != Some(false) {
        let names = ["tests::deep", "tests::slow_sum"];
        for (name, picked) in names.iter().zip(filterset.matches_tests(&binary, &names, &NoGroups)?) {
            println!("{name} {}", if picked { "yes" } else { "no" });
        }
    }
    Ok(())
}
