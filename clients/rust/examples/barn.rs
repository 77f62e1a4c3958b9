//! A robot and the office, each with its own table: they edit while the link is down, compare, merge
//! both ways, and show the same list.

use herd::{table_words, Delta, Error, Label, Marks, Schema, SchemaBuilder, Table};

const GROUP: usize = 1;
const COW: usize = 2;
const MILKING: usize = 3;

const FARM: SchemaBuilder = SchemaBuilder::new()
    .relation() // group: name
    .plain()
    .key(&[1])
    .relation() // cow: tag, group
    .plain()
    .abort(GROUP)
    .key(&[1])
    .relation() // milking: cow, grams
    .propagation(COW)
    .plain();

const RECORDS: usize = 64;

type Words = [u64; table_words(RECORDS)];

/// Prints the shown list; gives its lines.
fn print_list(name: &str, schema: &Schema, table: &Table<Words>) -> Result<Vec<String>, Error> {
    let marks = Marks::of(schema, table, [0; RECORDS])?;
    let lines: Vec<String> = table.list(schema, &marks)?.map(|record| record.to_string()).collect();
    println!("{name}: shown {}", marks.shown());
    for line in &lines {
        println!("{line}");
    }
    Ok(lines)
}

/// Merges a table that was received. Whether it brought news: only then the own table is sent on.
fn brings_news(
    name: &str,
    schema: &Schema,
    own: &mut Table<Words>,
    received: &Table<Words>,
) -> Result<bool, Error> {
    let changed = own.merge(schema, received)?;
    let news = changed != 0;
    println!("{name}: changed {changed}, {}", if news { "sent on" } else { "not sent on" });
    Ok(news)
}

/// Compares two copies, as a technician does at the barn door: which one must take in the other.
fn print_verdict(
    schema: &Schema,
    robot: &Table<Words>,
    office: &Table<Words>,
) -> Result<(), Error> {
    println!("robot, office: {}", robot.compare(schema, office)?);
    Ok(())
}

fn main() -> Result<(), Error> {
    assert!(herd::version_fits(), "the linked library is of version {}", herd::version());
    let schema = FARM.build()?;
    let mut delta = Delta::new();
    let mut robot = Table::start([0; table_words(RECORDS)], 1)?;
    let mut office = Table::start([0; table_words(RECORDS)], 2)?;

    // The office sets up the herd, and the robot takes in its table.
    let group = office.insert(&schema, &mut delta, GROUP, &[12])?;
    let cow = office.insert(&schema, &mut delta, COW, &[40, group.word()])?;
    robot.merge(&schema, &office)?;

    // The link is down. Both insert a cow with tag 41; the office renames the group.
    robot.insert(&schema, &mut delta, MILKING, &[cow.word(), 9_000])?;
    robot.insert(&schema, &mut delta, COW, &[41, group.word()])?;
    office.insert(&schema, &mut delta, COW, &[41, Label::NONE])?;
    let index = office.find(&schema, GROUP, group)?.expect("the office has the group");
    office.update(&schema, &mut delta, index, 1, 14)?;

    // The link is back: merge both ways, until a merge brings no news. The older cow 41 keeps the tag.
    print_verdict(&schema, &robot, &office)?;
    while brings_news("robot", &schema, &mut robot, &office)?
        && brings_news("office", &schema, &mut office, &robot)?
    {}
    print_verdict(&schema, &robot, &office)?;
    let agree = print_list("robot", &schema, &robot)? == print_list("office", &schema, &office)?;

    // The office deletes cow 40, and sends the delta alone. The cow's milking leaves the list with it.
    let index = office.find(&schema, COW, cow)?.expect("the office has the cow");
    office.delete(&schema, &mut delta, index)?;
    print_verdict(&schema, &robot, &office)?;
    robot.merge(&schema, &delta)?;
    let again = print_list("robot", &schema, &robot)? == print_list("office", &schema, &office)?;
    println!("the lists {}", if agree && again { "agree" } else { "differ" });
    Ok(())
}
