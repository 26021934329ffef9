//! The table of document 01's forms in docs/DECISIONS.md names an item and its place: the item stands there.
use maps_tests::programs::root;
use std::fs;

#[test]
fn forms_stand_where_the_table_says() {
    let text = fs::read_to_string(root().join("docs/DECISIONS.md")).unwrap();
    let table = text.split("## The forms that document 01 names").nth(1).expect("the table of forms");
    let mut places = 0;
    for row in table.lines().filter(|line| line.starts_with('|')) {
        let quoted: Vec<&str> = row.split('`').skip(1).step_by(2).collect();
        for pair in quoted.windows(2) {
            let Some((file, line)) = pair[1].rsplit_once(':').and_then(|(file, line)| Some((file, line.parse::<usize>().ok()?))) else {
                continue;
            };
            let source = fs::read_to_string(root().join(file)).unwrap_or_else(|_| panic!("no file {file}"));
            let found = source.lines().nth(line - 1).unwrap_or("");
            assert!(found.contains(pair[0]), "{} does not stand at {}, but: {found}", pair[0], pair[1]);
            places += 1;
        }
    }
    assert!(places > 20, "only {places} places in the table of forms");
}
