//! The herd book of a barn: a robot and the office, each with its own table, in the barn's own words.

use herd::book::{self, SCHEMA};
use herd::{table_words, Delta, Error, Label, Marks, Record, Table};

const RECORDS: usize = 64;

type Words = [u64; table_words(RECORDS)];

/// This call is to be refused.
fn refused<T>(what: &str, told: Result<T, Error>) {
    match told {
        Ok(_) => panic!("{what}: not refused"),
        Err(error) => println!("{what}: refused {}: {error}", error.number()),
    }
}

/// The index of a shown milking, 0 if there is none.
fn find_milking(table: &Table<Words>, label: Label) -> Result<usize, Error> {
    let index = book::find_milking(table, label)?.unwrap_or(0);
    println!("the milking: index {index}");
    Ok(index)
}

/// A shown record: its kind, its label and its values.
fn print_record(record: &Record) {
    const NAMES: [&str; 7] = ["", "group", "cow", "robot", "milking", "cleaning", "treatment"];
    let line = record.to_string();
    let values: Vec<&str> = line.split(' ').skip(2).collect();
    println!("{} {}: {}", NAMES[record.relation], record.label, values.join(" "));
}

fn print_list(name: &str, table: &Table<Words>) -> Result<(), Error> {
    let marks = Marks::of(&SCHEMA, table, [0; RECORDS])?;
    println!("{name}: shown {}", marks.shown());
    table.list(&SCHEMA, &marks)?.for_each(|record| print_record(&record));
    Ok(())
}

fn main() -> Result<(), Error> {
    assert!(herd::version_fits(), "the linked library is of version {}", herd::version());
    let mut delta = Delta::new();
    let mut robot = Table::start([0; table_words(RECORDS)], 1)?;
    let mut office = Table::start([0; table_words(RECORDS)], 2)?;

    // The office enters group 12, robot 1 and cow 4711 with transponder 982, and the robot takes in its table.
    let group = book::enter_group(&mut office, &mut delta, 12)?;
    let milker = book::enter_robot(&mut office, &mut delta, 1)?;
    let cow = book::enter_cow(&mut office, &mut delta, 4711, 982, Some(group))?;
    robot.merge(&SCHEMA, &office)?;

    // The link is down. The robot milks her (12,400 grams, 38.5 degrees, minute 300), is cleaned, and meets a cow without a group.
    let milking =
        book::enter_milking(&mut robot, &mut delta, Some(cow), Some(milker), 12_400, 385, 300)?;
    book::enter_cleaning(&mut robot, &mut delta, Some(milker), 310, 322)?;
    book::enter_cow(&mut robot, &mut delta, 4712, 983, None)?;
    // The office withholds her milk, and gives transponder 983 to a cow of its own.
    book::enter_treatment(&mut office, &mut delta, Some(cow), 400, 7_400)?;
    book::enter_cow(&mut office, &mut delta, 4713, 983, Some(group))?;

    // The link is back. Of the two cows with transponder 983 the older one is listed, by the label: 5.2 is before 6.1.
    robot.merge(&SCHEMA, &office)?;
    office.merge(&SCHEMA, &robot)?;
    print_list("robot", &robot)?;
    print_list("office", &office)?;

    // The office corrects the grams of the milking, which it knows by its label.
    let index = find_milking(&office, milking)?;
    book::change_milking(&mut office, &mut delta, index, book::MILKING_GRAMS, 12_300)?;
    robot.merge(&SCHEMA, &delta)?;
    let found = find_milking(&robot, milking)?;
    let marks = Marks::of(&SCHEMA, &robot, [0; RECORDS])?;
    robot.list(&SCHEMA, &marks)?.filter(|r| r.index == found).for_each(|r| print_record(&r));

    // A transponder that is taken; a milking that is no cow; a group with cows in it.
    refused("a second cow 982", book::enter_cow(&mut office, &mut delta, 4714, 982, None));
    refused("a milking as a cow", book::strike_cow(&mut office, &mut delta, index));
    let index = office.find(&SCHEMA, book::GROUP, group)?.expect("the office has the group");
    refused("the group", book::strike_group(&mut office, &mut delta, index));

    // Cow 4711 is struck off; her milking and her treatment leave the list with her.
    let index = office.find(&SCHEMA, book::COW, cow)?.expect("the office has the cow");
    book::strike_cow(&mut office, &mut delta, index)?;
    find_milking(&office, milking)?;
    print_list("office", &office)
}
