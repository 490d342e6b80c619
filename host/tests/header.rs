//! What stands twice is the same: the C header, this crate's columns and limits, and the definition that they follow.

use host::{Chart, Refusal};
use std::collections::BTreeMap;
use std::path::Path;

fn read(path: &str) -> String {
    let path = Path::new(env!("CARGO_MANIFEST_DIR")).join("..").join(path);
    std::fs::read_to_string(&path).unwrap_or_else(|error| panic!("{}: {error}", path.display()))
}

type Numbers = BTreeMap<String, usize>;

/// `NAME = number` and `#define NAME number` of the header.
fn header() -> Numbers {
    let text = read("include/chartreader.h");
    let words: Vec<&str> =
        text.split(|c: char| c.is_whitespace() || c == ',').filter(|word| !word.is_empty()).collect();
    let assigned = words.windows(3).filter(|three| three[1] == "=").map(|three| (three[0], three[2]));
    let defined = words.windows(3).filter(|three| three[0] == "#define").map(|three| (three[1], three[2]));
    let numbers = assigned.chain(defined).filter_map(|(name, number)| Some((name.to_string(), number.parse().ok()?)));
    numbers.collect()
}

/// A record of the definition's schema: `name = number;` between its braces.
fn record(schema: &str, name: &str) -> Numbers {
    let body = schema.split(&format!("\n{name} =\n    record {{")).nth(1).unwrap_or_else(|| panic!("no record {name}"));
    let body = body.split('}').next().expect("its end");
    let fields = body.split(';').filter_map(|field| field.split_once(" = "));
    let numbers = fields.map(|(field, number)| (field.trim().to_uppercase(), number.trim().parse().expect("a number")));
    numbers.collect()
}

/// The constants of a module of `columns.rs`.
fn columns(source: &str, module: &str) -> Numbers {
    let body = source.split(&format!("pub mod {module} {{")).nth(1).unwrap_or_else(|| panic!("no module {module}"));
    let lines = body.split('}').next().expect("its end").lines();
    let constants = lines.filter_map(|line| line.trim().strip_prefix("pub const ")?.strip_suffix(';'));
    let numbers = constants.filter_map(|line| {
        let (name, number) = line.split_once(" = ")?;
        Some((name.split(':').next()?.to_string(), number.parse().ok()?))
    });
    numbers.collect()
}

/// Each record of the schema, the module of this crate, and what the header writes before the field's name.
const RECORDS: [(&str, &str, &str); 10] = [
    ("chart", "chart", "CHART_CHART_"),
    ("state", "state", "CHART_STATE_"),
    ("transition", "transition", "CHART_TRANSITION_"),
    ("region", "region", "CHART_REGION_"),
    ("entry", "entry", "CHART_ENTRY_"),
    ("invoke", "invoke", "CHART_INVOKE_"),
    ("datum", "datum", "CHART_DATUM_"),
    ("parameter", "parameter", "CHART_PARAMETER_"),
    ("member", "member", "CHART_MEMBER_"),
    ("entry_kind", "entry_kind", "CHART_"),
];

#[test]
fn columns_are_the_definitions() {
    let (schema, source, header) = (read("crates/definition/specs/Rows.antt"), read("host/src/columns.rs"), header());
    for (name, module, prefix) in RECORDS {
        let fields = record(&schema, name);
        assert!(!fields.is_empty());
        assert_eq!(columns(&source, module), fields, "{name}");
        for (field, number) in fields {
            assert_eq!(header.get(&format!("{prefix}{field}")), Some(&number), "{name} {field}");
        }
    }
}

/// Lists and owners have other names in C, where all names share one space.
#[test]
fn lists_and_owners_are_the_definitions() {
    let (schema, source, header) = (read("crates/definition/specs/Rows.antt"), read("host/src/columns.rs"), header());
    assert_eq!(columns(&source, "list"), record(&schema, "list"));
    assert_eq!(columns(&source, "owner_kind"), record(&schema, "owner_kind"));
    let lists = [
        "CHART_CHILDREN",
        "CHART_HISTORIES",
        "CHART_ONENTRY",
        "CHART_ONEXIT",
        "CHART_STATE_TRANSITIONS",
        "CHART_TARGETS",
        "CHART_EVENT_WORDS",
        "CHART_SEND_NAMELIST",
        "CHART_INVOKE_NAMELIST",
    ];
    assert_eq!(lists.map(|name| header[name]), [1, 2, 3, 4, 5, 6, 7, 8, 9]);
    assert_eq!(["CHART_OF_SEND", "CHART_OF_INVOKE", "CHART_OF_DONEDATA"].map(|name| header[name]), [1, 2, 3]);
}

/// The proved code's constants, `pub const NAME: u32 = 1_024;`.
fn constants(source: &str) -> Numbers {
    let lines = source.lines().filter_map(|line| line.trim().strip_prefix("pub const ")?.strip_suffix(';'));
    let numbers = lines.filter_map(|line| {
        let (name, number) = line.split_once(" = ")?;
        Some((name.split(':').next()?.to_string(), number.replace('_', "").parse().ok()?))
    });
    numbers.collect()
}

#[test]
fn limits_are_the_definitions() {
    let (limits, header) = (constants(&read("crates/definition/src/lib.rt")), header());
    let here = [
        ("STATES", Chart::STATES),
        ("TRANSITIONS", Chart::TRANSITIONS),
        ("REGIONS", Chart::REGIONS),
        ("ENTRIES", Chart::ENTRIES),
        ("INVOKES", Chart::INVOKES),
        ("DATA", Chart::DATA),
        ("PARAMETERS", Chart::PARAMETERS),
        ("MEMBERS", Chart::MEMBERS),
        ("OPENED", Chart::OPENED),
        ("CHARGE", Chart::CHARGE),
    ];
    for (name, limit) in here {
        assert_eq!((limits[name], header[&format!("CHART_{name}")]), (limit, limit), "{name}");
    }
    for (name, of_event) in
        [("NAME", "NAME_BYTES"), ("KEY", "KEY_BYTES"), ("VALUE", "VALUE_BYTES"), ("TEXT", "TEXT_BYTES")]
    {
        assert_eq!(limits[name], header[&format!("CHART_{of_event}")], "{name}");
    }
    assert_eq!((limits["EVENT"], limits["ATTRIBUTES"]), (header["CHART_EVENT_BYTES"], header["CHART_ATTRIBUTES"]));
    assert_eq!(limits["DRAWN"], header["CHART_DRAWN"]);
}

/// The proved code's kinds of row, from numbers: `1 => Ok(RowKind::State),`.
fn kinds(source: &str) -> Numbers {
    let arms = source.lines().filter_map(|line| line.trim().strip_suffix("),")?.split_once(" => Ok(RowKind::"));
    arms.filter_map(|(number, name)| Some((name.to_uppercase(), number.parse().ok()?))).collect()
}

#[test]
fn kinds_and_widths_are_the_readings() {
    let source = read("crates/reading/src/lib.rt");
    let (reading, kinds, header) = (constants(&source), kinds(&source), header());
    for (place, kind) in host::Kind::ALL.into_iter().enumerate() {
        let name = format!("{kind:?}").to_uppercase();
        assert_eq!((kind as usize, kinds[&name], header[&format!("CHART_{name}")]), (place, place, place));
    }
    assert_eq!((reading["WIDTH"], header["CHART_ROW_COLUMNS"]), (host::ROW_COLUMNS, host::ROW_COLUMNS));
    assert_eq!(reading["BYTES"], header["CHART_ROW_BYTES"]);
}

/// A refusal of each number that a stream can get, and of a row that does not exist.
fn refusals() -> Vec<Refusal> {
    let mut chart = Chart::new();
    let begin = "event=open\nname=scxml\nevent=open\nname=state\nkey=id\nvalue=a\nkey=initial\nvalue=b\nevent=open\nname=onentry\n\
        event=open\nname=if\nkey=cond\nvalue=c\nevent=empty\nname=else\n";
    chart.feed_stream(begin.as_bytes()).expect("a chart");
    let events = [
        "",
        "event=empty\nname=x\nkey=k\nvalue=\nkey=k\nvalue=\n",
        "event=end\nname=scxml\n",
        "event=empty\nname=include\n",
        "event=empty\nname=onexit\n",
        "event=empty\nname=scxml\n",
        "event=empty\nname=raise\n",
        "event=empty\nname=else\n",
    ];
    let refused = events.into_iter().filter_map(|event| chart.feed(event.as_bytes()).err());
    let mut refused: Vec<Refusal> = refused.collect();
    refused.extend(chart.read_row(host::Kind::State, 9).err());
    refused
}

#[test]
fn questions_are_the_headers() {
    let text = read("include/chartreader.h");
    let refusals = refusals();
    assert_eq!(refusals.iter().map(Refusal::number).collect::<Vec<u32>>(), [3, 4, 5, 6, 8, 9, 10, 14, 16]);
    let body = text.split("questions[] = {").nth(1).expect("the questions").split("};").next().expect("their end");
    let questions: Vec<&str> = body.split('"').skip(1).step_by(2).collect();
    assert_eq!(questions.len(), 17);
    for refusal in refusals {
        assert_eq!(refusal.question(), questions[refusal.number() as usize]);
    }
    let source = read("host/src/refusal.rs");
    assert!(questions[1..].iter().all(|question| source.contains(&format!("    \"{question}\",\n"))));
}
