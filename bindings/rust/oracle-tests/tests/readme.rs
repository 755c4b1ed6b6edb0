//! The values that README.md shows; that the commands print them is tested with the binding.

use std::{fs, path::Path};

use oracle::{
    listing::listing,
    map::{MapFile, Object, ObjectKind, Play},
    reader::{read_library, read_program},
    values::Original,
};
use oracle_tests::due_answer;
use popejoanplum::text;

/// What the example of a heat prints of the worked example, by the original and the second reader.
fn heat_lines(map: &MapFile) -> String {
    let original = Original::new(map);
    let line = |(max_combo, n300, n100)| {
        let play = Play {
            passed: 3,
            max_combo,
            n300,
            n100,
            ..Play::default()
        };
        match due_answer(map, &original, &play) {
            Ok(_) => {
                let e = original.attributes(3).estimates(&play);
                format!("accuracy {}, misses {}\n", e.accuracy, e.effective)
            }
            Err((number, offset)) => format!(
                "refused {number} at {offset}: the play exceeds its map: too many judgements, too much combo \
                 or too many slider hits\n"
            ),
        }
    };
    [(7, 3, 0), (8, 3, 0), (3, 2, 1)].map(line).concat()
}

/// The values that are shown are the original's, not only our own.
#[test]
fn values_are_those_of_the_original() {
    let root = Path::new(env!("CARGO_MANIFEST_DIR")).join("../../..");
    let readme = fs::read_to_string(root.join("README.md")).unwrap();
    let shown = |text: &str| {
        let lines: String = text.lines().map(|line| format!("    {line}\n")).collect();
        assert!(readme.contains(&lines), "{lines}");
    };

    let by_hand = fs::read_to_string(root.join("examples/by-hand.txt")).unwrap();
    let file = text::assemble(&by_hand).unwrap();
    shown(&listing(&read_program(&file)));
    let file = text::assemble(by_hand.replace("for 1400", "for 4000000")).unwrap();
    shown(&listing(&read_program(&file)));

    let example = fs::read(root.join("examples/worked-example.map")).unwrap();
    let mut map = read_library(&example).unwrap();
    let play = Play {
        passed: 3,
        max_combo: 3,
        n300: 2,
        n100: 1,
        score: Some(900),
        ..Play::default()
    };
    shown(&heat_lines(&map));
    let host_line = |map: &MapFile| {
        let attributes = Original::new(map).attributes(3);
        let misses = attributes.estimates(&play).effective;
        format!("bonus {}, misses {misses}\n", attributes.legacy_bonus)
    };
    let before = host_line(&map);
    map.objects[0] = Object {
        start: 0.0,
        kind: ObjectKind::Spinner { duration: 1_400.0 },
    };
    shown(&(before + &host_line(&map)));
}
