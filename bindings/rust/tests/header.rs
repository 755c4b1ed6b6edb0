//! The declarations of `popejoanplum::sys` beside those of the C header: gcc says what the header's
//! structs are, and takes each function of ours as one of the header's.

use std::{
    any::TypeId,
    collections::{BTreeMap, BTreeSet},
    fs,
    mem::{align_of, offset_of, size_of},
    path::{Path, PathBuf},
    process::Command,
};

use popejoanplum::{HEAT_PLAYS, Map, Mods, Origin, Play, SliderFactors, sys};

/// A struct as lines of text: its size and alignment, then each field's name, offset, size and type.
type Layouts = BTreeMap<String, Vec<String>>;

/// The C type of a field; a struct of our own is only that.
fn type_name<T: 'static>() -> &'static str {
    let names = [
        (TypeId::of::<u8>(), "uint8_t"),
        (TypeId::of::<u16>(), "uint16_t"),
        (TypeId::of::<u32>(), "uint32_t"),
        (TypeId::of::<u64>(), "uint64_t"),
        (TypeId::of::<usize>(), "uint64_t"),
        (TypeId::of::<f32>(), "float"),
        (TypeId::of::<f64>(), "double"),
    ];
    let found = names.iter().find(|(id, _)| *id == TypeId::of::<T>());
    found.map_or("struct", |(_, name)| name)
}

fn field<S, T: 'static>(name: &str, offset: usize, _: fn(&S) -> &T) -> String {
    format!("{name} {offset} {} {}", size_of::<T>(), type_name::<T>())
}

macro_rules! layout {
    ($layouts:ident, $name:ident { $($field:ident),* $(,)? }) => {
        // Names all fields, so that none is left out here.
        let _ = |given: sys::$name| {
            let sys::$name { $($field: _),* } = given;
        };
        let size = format!("{} {}", size_of::<sys::$name>(), align_of::<sys::$name>());
        let fields = [$(field(
            stringify!($field),
            offset_of!(sys::$name, $field),
            |given: &sys::$name| &given.$field,
        )),*];
        let lines = [size].into_iter().chain(fields).collect();
        $layouts.insert(plain(stringify!($name)), lines);
    };
}

fn ours() -> Layouts {
    let mut layouts = Layouts::new();
    layout!(layouts, Status { status, offset });
    layout!(layouts, Settings { hp, od, cs });
    layout!(
        layouts,
        Play {
            clock_rate,
            max_combo,
            large_tick_hits,
            small_tick_hits,
            slider_end_hits,
            score,
            passed_objects,
            n300,
            n100,
            n50,
            misses,
            flags,
            origin,
            has_score,
        }
    );
    layout!(
        layouts,
        Attributes {
            object_count,
            multiplier,
            accuracy_score,
            combo_score,
            legacy_bonus_score,
            standardised_bonus_score,
            bonus_score_ratio,
            nested_score_per_object,
            max_combo,
            n_circles,
            n_sliders,
            n_spinners,
            n_repeats,
            n_ticks,
        }
    );
    layout!(
        layouts,
        Estimates {
            accuracy,
            combo_based,
            score_based,
            effective,
            has_score_based,
        }
    );
    layout!(layouts, SliderFactors { aim, speed });
    layout!(layouts, SliderBreaks { aim, speed });
    layout!(
        layouts,
        MapInfo {
            status,
            offset,
            settings,
            breaks,
            objects
        }
    );
    layout!(
        layouts,
        MapAnswer {
            status,
            offset,
            attributes
        }
    );
    layout!(
        layouts,
        PlayAnswer {
            status,
            offset,
            attributes,
            estimates
        }
    );
    layout!(
        layouts,
        BreaksAnswer {
            status,
            offset,
            attributes,
            estimates,
            slider_breaks
        }
    );
    layouts
}

/// A struct's name without what the two languages do differently: `pjp_map_info` is `mapinfo`.
fn plain(name: &str) -> String {
    let name = name.strip_prefix("pjp_").unwrap_or(name);
    let name = name.strip_suffix("_t").unwrap_or(name);
    name.replace('_', "").to_lowercase()
}

fn header_path() -> PathBuf {
    Path::new(env!("CARGO_MANIFEST_DIR")).join("../c/popejoanplum.h")
}

/// The header without comments and lines of the preprocessor.
fn header() -> String {
    let path = header_path();
    let read = fs::read_to_string(&path);
    let mut text = read.unwrap_or_else(|why| panic!("{}: {why}", path.display()));
    while let Some(start) = text.find("/*") {
        let length = text[start..].find("*/").expect("an end of the comment") + 2;
        text.replace_range(start..start + length, " ");
    }
    let code = |line: &str| line.split("//").next().unwrap_or_default().to_owned();
    let lines = text
        .lines()
        .filter(|line| !line.trim_start().starts_with('#'));
    lines.map(code).collect::<Vec<_>>().join("\n")
}

/// Each struct of the header: its C type and the names of its fields.
fn header_structs(header: &str) -> Vec<(String, Vec<String>)> {
    let mut structs = Vec::new();
    for (start, _) in header.match_indices('{') {
        let before: Vec<&str> = header[..start]
            .rsplit([';', '}'])
            .next()
            .unwrap_or_default()
            .split_whitespace()
            .collect();
        let Some(place) = before.iter().position(|word| *word == "struct") else {
            continue;
        };
        let (body, after) = header[start + 1..].split_once('}').expect("an end");
        let name = match after.split(';').next().map(str::trim) {
            Some(alias) if before.contains(&"typedef") => alias.to_owned(),
            _ => format!("struct {}", before[place + 1]),
        };
        let fields = body
            .split(';')
            .flat_map(|declaration| declaration.split(','))
            .filter_map(|declarator| declarator.split_whitespace().last())
            .map(str::to_owned)
            .collect();
        structs.push((name, fields));
    }
    structs
}

/// Compiles a C file that includes the header, and says where the result is.
fn compile(name: &str, text: &str, arguments: &[&str]) -> PathBuf {
    let folder = Path::new(env!("CARGO_TARGET_TMPDIR"));
    let source = folder.join(format!("{name}.c"));
    let result = folder.join(name);
    fs::write(&source, text).unwrap();
    let gcc = Command::new("gcc")
        .args(["-std=c11", "-Wall", "-Wextra", "-Werror", "-pedantic"])
        .args(arguments)
        .arg("-include")
        .arg(header_path())
        .arg(&source)
        .arg("-o")
        .arg(&result)
        .output()
        .expect("gcc");
    let said = String::from_utf8_lossy(&gcc.stderr);
    assert!(gcc.status.success(), "{said}");
    result
}

fn theirs() -> Layouts {
    let mut text = String::from(
        "#include <stddef.h>
#include <stdint.h>
#include <stdio.h>
#define TYPE(x) _Generic((x), uint8_t: \"uint8_t\", uint16_t: \"uint16_t\", uint32_t: \"uint32_t\", \\
    uint64_t: \"uint64_t\", float: \"float\", double: \"double\", default: \"struct\")
#define SIZE(s) printf(\"%s\\n%zu %zu\\n\", #s, sizeof(s), _Alignof(s))
#define FIELD(s, f) printf(\"%s %zu %zu %s\\n\", #f, offsetof(s, f), sizeof(((s *)0)->f), TYPE(((s *)0)->f))
int main(void) {
",
    );
    let structs = header_structs(&header());
    for (name, fields) in &structs {
        text += &format!("SIZE({name});\n");
        for field in fields {
            text += &format!("FIELD({name}, {field});\n");
        }
        text += "puts(\"\");\n";
    }
    let program = compile("layouts", &(text + "return 0; }\n"), &[]);
    let output = Command::new(program).output().unwrap().stdout;
    let output = String::from_utf8(output).unwrap();
    let layouts = output.trim_end().split("\n\n").map(|printed| {
        let mut lines = printed.lines();
        let name = lines.next().unwrap_or_default();
        let name = plain(name.trim_start_matches("struct "));
        (name, lines.map(str::to_owned).collect())
    });
    let layouts: Layouts = layouts.collect();
    assert_eq!(layouts.len(), structs.len());
    layouts
}

#[test]
fn structs_are_the_header_s() {
    assert_eq!(ours(), theirs());
}

/// A function of `sys`: its name, and its C type with the header's names of structs.
fn functions(structs: &BTreeMap<String, String>) -> Vec<(String, String, String)> {
    let source = include_str!("../src/sys.rs");
    let (_, block) = source.split_once("unsafe extern \"C\" {").expect("a block");
    let c_type = |rust: &str| match rust.trim() {
        "usize" => "size_t".to_owned(),
        "u64" => "uint64_t".to_owned(),
        "*const u8" => "const uint8_t *".to_owned(),
        "*const u64" => "const uint64_t *".to_owned(),
        "*mut u64" => "uint64_t *".to_owned(),
        "*const f64" => "const double *".to_owned(),
        "*mut f64" => "double *".to_owned(),
        "*const Play" => format!("const {} *", structs["play"]),
        "*mut PlayAnswer" => format!("{} *", structs["playanswer"]),
        name => structs[&plain(name)].clone(),
    };
    let declared = block.split("fn pjp_").skip(1);
    declared
        .map(|text| {
            let (text, _) = text.split_once(';').expect("an end");
            let (front, result) = text.split_once("->").expect("a result");
            let (name, parameters) = front.split_once('(').expect("parameters");
            let parameters: Vec<String> = parameters
                .trim_end()
                .trim_end_matches(')')
                .split(',')
                .filter_map(|parameter| parameter.split_once(':'))
                .map(|(_, rust)| c_type(rust))
                .collect();
            (format!("pjp_{name}"), c_type(result), parameters.join(", "))
        })
        .collect()
}

#[test]
fn functions_are_the_header_s() {
    let header = header();
    let structs = header_structs(&header)
        .into_iter()
        .map(|(name, _)| (plain(name.trim_start_matches("struct ")), name))
        .collect();
    let functions = functions(&structs);

    // Another type of a pointer to a function is an error of the compiler.
    let mut text = String::from("#include <stddef.h>\n#include <stdint.h>\n");
    for (name, result, parameters) in &functions {
        text += &format!("{result} (*const same_{name})({parameters}) = {name};\n");
    }
    compile("functions", &text, &["-c"]);

    let names: BTreeSet<String> = functions.into_iter().map(|(name, ..)| name).collect();
    assert_eq!(names, declared(&header));
}

/// The functions that the header declares; one with a body of its own is not in the archive.
fn declared(header: &str) -> BTreeSet<String> {
    let calls = header.match_indices('(').filter_map(|(start, _)| {
        let (before, after) = header.split_at(start);
        let (_, after) = after.split_once(')')?;
        let word = |c: char| c.is_alphanumeric() || c == '_';
        let name = before.rsplit(|c| !word(c)).next()?;
        let is_declared = name.starts_with("pjp_") && after.trim_start().starts_with(';');
        is_declared.then(|| name.to_owned())
    });
    calls.collect()
}

#[test]
fn constants_are_the_header_s() {
    let mods = Mods::NAMED.map(|(name, mods)| (name.to_uppercase(), mods.bits()));
    let origin = |origin| {
        sys::Play::from(&Play {
            origin,
            ..Play::default()
        })
        .origin
        .into()
    };
    let origins = [
        ("STABLE", origin(Origin::Stable)),
        ("WITH_SLIDER_ACC", origin(Origin::WithSliderAcc)),
        ("WITHOUT_SLIDER_ACC", origin(Origin::WithoutSliderAcc)),
    ];
    let origins = origins.map(|(name, number)| (name.to_owned(), number));
    let others = [
        ("FACTOR", factor_refusal()),
        ("HEAT", heat_refusal()),
        ("HEAT_PLAYS", HEAT_PLAYS as u16),
    ];
    let others = others.map(|(name, number)| (name.to_owned(), number));
    let mut text = String::from("#include <stdio.h>\nint main(void) {\n");
    let mut due = String::new();
    for (name, number) in mods.iter().chain(&origins).chain(&others) {
        text += &format!("printf(\"%d\\n\", PJP_{name});\n");
        due += &format!("{number}\n");
    }
    let program = compile("constants", &(text + "return 0; }\n"), &[]);
    let output = Command::new(program).output().unwrap().stdout;
    assert_eq!(String::from_utf8(output).unwrap(), due);
}

/// What the library answers to a factor out of range.
fn factor_refusal() -> u16 {
    let factors = SliderFactors {
        aim: 10.5,
        speed: 0.0,
    };
    let given = Map::default().score_play_breaks(&Play::default(), &factors);
    given.unwrap_err().number().into()
}

/// What the library answers to a heat of too many plays.
fn heat_refusal() -> u16 {
    let given = Map::default().heat(&[Play::default(); HEAT_PLAYS + 1]);
    given.unwrap_err().number().into()
}
