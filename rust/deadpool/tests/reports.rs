//! Reports of several pools as one text, and whether that is one that Prometheus takes.
mod common;

use common::{Numbers, Task, block_on};
use deadpool::managed::{Object, Pool, Report, Tally};
use deadpool::{Reports, Status, unmanaged};
use std::collections::HashSet;
use std::panic::catch_unwind;

/// A name that has all that a label's value may not have as it is, and more.
const ROUGH: &str = "the \"old\"\\stock\n# TYPE pool_size gauge\npool_size{pool=\"\"} 9\r\n{é}";

/// A line of a family: its labels, each with its value, and its figure.
type Sample = (Vec<(String, String)>, u64);

/// A family of a text that Prometheus takes.
struct Family {
    name: String,
    kind: String,
    samples: Vec<Sample>,
}

/// Whether this is the name of a family or of a label.
fn is_name(name: &str) -> bool {
    let is_of_word = |it: char| it.is_ascii_alphanumeric() || it == '_';
    name.starts_with(|it: char| it.is_ascii_alphabetic() || it == '_') && name.chars().all(is_of_word)
}

/// A label's value, without its backslashes, and what stands behind its end.
fn value_of(text: &str) -> (String, &str) {
    let (mut value, mut letters) = (String::new(), text.chars());
    loop {
        match letters.next().expect("a value ends") {
            '"' => return (value, letters.as_str()),
            '\\' => value.push(match letters.next() {
                Some('n') => '\n',
                Some(letter @ ('"' | '\\')) => letter,
                other => panic!("a backslash before {other:?}"),
            }),
            letter => value.push(letter),
        }
    }
}

/// The name of a line, and the rest.
fn sample_of(line: &str) -> (&str, Sample) {
    let (name, mut rest) = line.split_once('{').expect("labels");
    let mut labels = Vec::new();
    loop {
        let (label, behind) = rest.split_once("=\"").expect("a label");
        assert!(is_name(label) && labels.iter().all(|(other, _)| other != label), "{line}");
        let (value, behind) = value_of(behind);
        labels.push((label.to_string(), value));
        let Some(more) = behind.strip_prefix(',') else {
            let figure = behind.strip_prefix("} ").expect("the end of the labels");
            return (name, (labels, figure.parse().expect("a figure")));
        };
        rest = more;
    }
}

/// The families of a text, or a panic if Prometheus would not take it: each has a help, a kind and samples, in this order, at one
/// place; none stands twice, and no sample either.
fn families(text: &str) -> Vec<Family> {
    let (mut families, mut helped, mut seen) = (Vec::<Family>::new(), None, HashSet::new());
    assert!(text.is_empty() || text.ends_with('\n'), "the last line has no end");
    for line in text.split_terminator('\n') {
        if let Some(help) = line.strip_prefix("# HELP ") {
            let (name, help) = help.split_once(' ').expect("a help");
            assert!(is_name(name) && families.iter().all(|it| it.name != name), "{name} stands twice");
            assert!(help.ends_with('.') && !help.contains('\\') && helped.is_none(), "{line}");
            helped = Some(name);
        } else if let Some(kind) = line.strip_prefix("# TYPE ") {
            let (name, kind) = kind.split_once(' ').expect("a kind");
            assert_eq!(helped.take(), Some(name));
            assert_eq!(kind, if name.ends_with("_total") { "counter" } else { "gauge" }, "{name}");
            assert!(families.last().is_none_or(|it| !it.samples.is_empty()), "a family before {name} is empty");
            families.push(Family { name: name.into(), kind: kind.into(), samples: Vec::new() });
        } else {
            let (name, sample) = sample_of(line);
            let family = families.last_mut().expect("a family");
            assert!(family.name == name && helped.is_none(), "{line}");
            let mut labels = sample.0.clone();
            labels.sort();
            assert!(seen.insert((name.to_string(), labels)), "{line} stands twice");
            family.samples.push(sample);
        }
    }
    assert!(helped.is_none() && families.last().is_none_or(|it| !it.samples.is_empty()), "the last family is empty");
    families
}

/// The lines of a family: the pool, its `nth` and its cause, if there are such, and the figure.
fn lines_of(families: &[Family], name: &str) -> Vec<String> {
    let family = families.iter().find(|it| it.name == name).expect("the family");
    let words = |labels: &[(String, String)]| labels.iter().map(|(_, value)| format!("{value} ")).collect::<String>();
    family.samples.iter().map(|(labels, figure)| format!("{}{figure}", words(labels))).collect()
}

fn managed(name: &'static str) -> Pool<Numbers> {
    Pool::builder(Numbers::default()).max_size(4).name(name).build().expect("a pool")
}

fn get(pool: &Pool<Numbers>) -> Object<Numbers> {
    block_on(pool.get()).expect("an object")
}

/// The report of an unmanaged pool under a name, which it has not.
fn named<'a>(name: &'a str, pool: &unmanaged::Pool<u8>) -> unmanaged::Report<'a> {
    unmanaged::Report { name, ..pool.tally() }
}

/// The lines of a report's own text, each behind the name of its family.
fn own_lines(text: &str) -> Vec<(&str, &str)> {
    let mut name = "";
    let mut lines = Vec::new();
    for line in text.lines().filter(|line| !line.starts_with("# HELP ")) {
        match line.strip_prefix("# TYPE ") {
            Some(head) => (name, _) = head.split_once(' ').expect("a kind"),
            None => lines.push((name, line)),
        }
    }
    lines
}

/// Fails unless a list's text has each line of these texts, in its order, in the family in which it stands there, and beside these
/// what is out alone.
fn has_all(list: &str, texts: &[String]) {
    let taken = families(list);
    let (there, mut count) = (own_lines(list), 0);
    for text in texts {
        let wanted = own_lines(text);
        let found: Vec<_> = there.iter().filter(|it| wanted.contains(it)).copied().collect();
        assert_eq!(found, wanted, "{list}");
        count += wanted.len();
    }
    assert_eq!(there.len(), count + texts.len(), "{list}");
    assert!(texts.is_empty() || taken.last().is_some_and(|it| it.name == "pool_out" && it.kind == "gauge"));
}

#[test]
fn what_prometheus_would_not_take_is_seen() {
    let family = "# HELP a Some.\n# TYPE a gauge\na{b=\"c\"} 1\n";
    assert_eq!(lines_of(&families(family), "a"), ["c 1"]);
    let twice = format!("{family}{family}");
    let again = format!("{family}a{{b=\"c\"}} 2\n");
    let apart = format!("{family}{}a{{b=\"d\"}} 2\n", family.replace('a', "e"));
    let (late, raw) = (family.replace("HELP", "HLEP"), family.replace("c", "c\"d\n"));
    let (turned, cut) = (family.replace("# TYPE a gauge\n", ""), family.trim_end());
    let pool = managed("orders").tally().to_string();
    for text in [&twice, &again, &apart, &late, &raw, &turned, cut, &pool] {
        assert!(catch_unwind(|| families(text)).is_err(), "{text}");
    }
}

#[test]
fn a_list_of_no_pool_has_no_text() {
    assert_eq!(Reports::new().to_string(), "");
    assert_eq!(Reports::new(), Reports::default());
}

#[test]
fn a_list_of_one_has_its_text_and_helps_and_what_is_out() {
    let (pool, items) = (managed(ROUGH), unmanaged::Pool::from([1, 2]));
    let _held = get(&pool);
    let texts = [pool.tally().to_string(), named(ROUGH, &items).to_string()];
    let lists = [Reports::from(pool.tally()), Reports::from(named(ROUGH, &items))];
    for (list, text) in lists.iter().zip(texts) {
        let all = list.to_string();
        has_all(&all, std::slice::from_ref(&text));
        let left: String = all.split_inclusive('\n').filter(|line| !line.starts_with("# HELP ")).collect();
        let (own, out) = left.split_at(text.len());
        assert_eq!(own, text);
        assert!(out.starts_with("# TYPE pool_out gauge\npool_out{pool=\"the \\\"old\\\"\\\\stock\\n# TYPE"), "{out}");
    }
}

#[test]
fn lists_of_two_and_three_have_each_family_once() {
    let (orders, rough, items) = (managed("orders"), managed(ROUGH), unmanaged::Pool::from([1, 2, 3]));
    let _held = [get(&orders), get(&orders), get(&rough)];
    let _ = Object::take(get(&rough));
    let lists = [
        vec![with_text(orders.tally()), with_text(rough.tally())],
        vec![with_text(orders.tally()), with_text(named("items", &items))],
        vec![with_text(named(ROUGH, &items)), with_text(orders.tally())],
        vec![with_text(orders.tally()), with_text(named("items", &items)), with_text(rough.tally())],
    ];
    for (list, count) in lists.into_iter().zip([14, 20, 20, 20]) {
        let (reports, texts): (Vec<_>, Vec<_>) = list.into_iter().unzip();
        let all = reports.into_iter().collect::<Reports>().to_string();
        has_all(&all, &texts);
        assert_eq!(families(&all).len(), count);
    }
}

/// A list of one, and the report's own text.
fn with_text<R: Into<Reports> + ToString>(report: R) -> (Reports, String) {
    let text = report.to_string();
    (report.into(), text)
}

#[test]
fn families_stand_in_the_order_of_each_report() {
    let (pool, items) = (managed("orders"), unmanaged::Pool::from([1]));
    let heads =
        |text: String| text.lines().filter(|it| it.starts_with("# TYPE ")).map(String::from).collect::<Vec<_>>();
    let wanted = [heads(pool.tally().to_string()), heads(items.tally().to_string())];
    let (both, turned): (Reports, Reports) = (
        [Reports::from(pool.tally()), items.tally().into()].into_iter().collect(),
        [Reports::from(items.tally()), pool.tally().into()].into_iter().collect(),
    );
    for list in [both, turned] {
        let there = heads(list.to_string());
        for own in &wanted {
            assert_eq!(&there.iter().filter(|it| own.contains(it)).cloned().collect::<Vec<_>>(), own);
        }
        assert_eq!(there.len(), 20);
    }
}

#[test]
fn what_is_out_is_the_size_less_what_is_available() {
    let (orders, items) = (managed("orders"), unmanaged::Pool::from([1, 2, 3]));
    let [back, _first, _second] = [get(&orders), get(&orders), get(&orders)];
    drop(back);
    let _item = items.try_get().expect("an item");
    let mut reports = Reports::from(orders.tally());
    reports.push(named("items", &items));
    let there = families(&reports.to_string());
    assert_eq!(lines_of(&there, "pool_size"), ["orders 3", "items 3"]);
    assert_eq!(lines_of(&there, "pool_available"), ["orders 1", "items 2"]);
    assert_eq!(lines_of(&there, "pool_out"), ["orders 2", "items 1"]);
}

#[test]
fn pools_of_one_name_are_told_apart() {
    let (one, other) = (managed("orders"), managed("orders"));
    let _ = Object::take(get(&other));
    let items = unmanaged::Pool::from([1]);
    let mut reports: Reports = [&one, &other].into_iter().map(Pool::tally).collect();
    reports.extend([named("orders", &items), items.tally(), items.tally()]);
    let there = families(&reports.to_string());
    assert_eq!(lines_of(&there, "pool_size"), ["orders 0", "2 orders 0", "3 orders 1", " 1", "2  1"]);
    assert_eq!(lines_of(&there, "pool_created_total"), ["orders 0", "2 orders 1"]);
    assert_eq!(lines_of(&there, "pool_adds_total"), ["3 orders 1", " 1", "2  1"]);
    let given_up = lines_of(&there, "pool_given_up_total");
    assert_eq!(given_up.iter().filter(|it| it.contains("taken 1")).collect::<Vec<_>>(), ["2 orders taken 1"]);
    assert!(reports.to_string().contains("pool_size{nth=\"2\",pool=\"orders\"} 0\n"));
}

#[test]
fn a_list_is_put_behind_another() {
    let pools = [managed("a"), managed("b"), managed("c")];
    let at_once: Reports = pools.iter().map(Pool::tally).collect();
    let mut in_turn = Reports::new();
    in_turn.push(pools[0].tally());
    in_turn.push(pools[1..].iter().map(Pool::tally).collect::<Reports>());
    assert_eq!(in_turn, at_once);
    assert_eq!(in_turn.clone().to_string(), at_once.to_string());
    assert_eq!(lines_of(&families(&in_turn.to_string()), "pool_max_size"), ["a 4", "b 4", "c 4"]);
}

#[test]
fn a_get_that_has_no_object_yet_takes_from_what_is_available() {
    let pool = managed("orders");
    let held = (0..4).map(|_| get(&pool)).collect::<Vec<_>>();
    let mut waits = Task::new(pool.get());
    assert!(waits.poll().is_pending());
    drop(held);
    // (one of the four that are idle is for the get)
    let there = families(&Reports::from(pool.tally()).to_string());
    assert_eq!(lines_of(&there, "pool_available"), ["orders 3"]);
    assert_eq!(lines_of(&there, "pool_out"), ["orders 1"]);
}

#[test]
fn more_that_is_available_than_there_is_leaves_nothing_out() {
    let pool = managed("orders");
    let Report { tally, .. } = pool.tally();
    let status = Status { max_size: 4, size: 1, available: 2, waiting: 0 };
    let report = Report { name: "orders", tally: Tally { created: u64::MAX, ..tally }, status };
    let there = families(&Reports::from(report).to_string());
    assert_eq!(lines_of(&there, "pool_out"), ["orders 0"]);
    assert_eq!(lines_of(&there, "pool_created_total"), [format!("orders {}", u64::MAX)]);
}
