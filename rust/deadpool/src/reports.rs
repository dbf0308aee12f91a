//! Reports of several pools, as one text for Prometheus.
use crate::cores::parts::Status;
use crate::cores::{journal, unmanaged_journal};
use std::fmt;

/// What each family of figures is, by its name.
const HELP: [(&str, &str); 20] = [
    ("pool_max_size", "How many objects the pool may have."),
    ("pool_size", "How many objects the pool has: idle, being prepared, or out."),
    ("pool_available", "Idle objects, less the gets that have none yet; of an unmanaged pool all idle ones."),
    ("pool_waiting", "Gets that have no object yet, less the idle ones; of an unmanaged pool all gets in the queue."),
    ("pool_gets_total", "Gets that asked."),
    ("pool_gets_served_total", "Gets that were given a place; of an unmanaged pool, an object."),
    ("pool_gets_waited_total", "Gets that joined the queue, since nothing was free."),
    ("pool_gets_late_total", "Gets that ended since nothing was free at once, or in time."),
    ("pool_gets_crowded_total", "Gets that were refused since as many waited as may."),
    ("pool_gets_closed_total", "Gets that were refused since the pool had closed."),
    ("pool_created_total", "Creations that made an object."),
    ("pool_failed_total", "Creations that ended in an error."),
    ("pool_adds_total", "Adds that brought an object."),
    ("pool_adds_stored_total", "Adds whose object the pool took."),
    ("pool_adds_waited_total", "Adds that joined the queue, since there was no room."),
    ("pool_adds_full_total", "Adds that were refused at once since there was no room."),
    ("pool_adds_crowded_total", "Adds that were refused since as many waited as may."),
    ("pool_adds_closed_total", "Adds that were refused since the pool had closed."),
    ("pool_given_up_total", "Objects that have left the pool, by the cause."),
    ("pool_out", "Objects that are out, being prepared, or idle while gets have none yet: size less available."),
];

/// Reports of pools of either kind, in any order. It is printed as one text for Prometheus, of type `text/plain; version=0.0.4`.
///
/// Each family of figures stands once, with a help, and behind it are the lines of each pool that has it, with its name as the label
/// `pool`. The families stand in the order of each report. The last one is the gauge `pool_out`, a pool's size less what is available:
/// how many objects are out, and of a managed pool also those being prepared, or idle while gets have none yet.
///
/// Give each pool a name of its own. One whose name an earlier one has is told from that by a label `nth`, in the order of the list:
/// 2, 3 and so on. `pools.iter().map(Pool::tally).collect()` lists the pools of one kind; others are put behind these.
///
/// ```
/// use deadpool::{Reports, unmanaged};
///
/// let (letters, stamps) = (unmanaged::Pool::from([1, 2, 3]), unmanaged::Pool::from(["red"]));
/// let held = letters.try_get()?;
/// let mut reports = Reports::new();
/// reports.push(unmanaged::Report { name: "letters", ..letters.tally() });
/// reports.push(unmanaged::Report { name: "stamps", ..stamps.tally() });
/// let text = reports.to_string();
/// assert!(text.contains("\n# TYPE pool_size gauge\npool_size{pool=\"letters\"} 3\npool_size{pool=\"stamps\"} 1\n"));
/// assert!(text.ends_with("\npool_out{pool=\"letters\"} 1\npool_out{pool=\"stamps\"} 0\n"));
/// # Ok::<(), unmanaged::PoolError>(())
/// ```
#[derive(Clone, Debug, Default, PartialEq, Eq)]
pub struct Reports {
    /// The text of each pool.
    texts: Vec<String>,
}

impl Reports {
    /// Those of no pool, which have an empty text.
    #[must_use]
    pub const fn new() -> Self {
        Reports { texts: Vec::new() }
    }

    /// Puts a pool's report behind those that are there, or all of another list.
    pub fn push(&mut self, report: impl Into<Reports>) {
        self.texts.append(&mut report.into().texts);
    }

    /// A pool's own text, and behind it what is out.
    fn of(report: &impl fmt::Display, status: Status) -> Self {
        let text = report.to_string();
        let out = status.size.saturating_sub(status.available);
        let labels = labels_of(&text);
        Reports { texts: vec![format!("{text}# TYPE pool_out gauge\npool_out{{{labels}}} {out}\n")] }
    }

    /// The families of all texts. One that a text has, and none before, stands behind the one that is ahead of it there.
    fn families(&self) -> Vec<Family<'_>> {
        let mut families = Vec::<Family<'_>>::new();
        for (at, text) in self.texts.iter().enumerate() {
            let labels = labels_of(text);
            let before = self.texts[..at].iter().filter(|it| labels_of(it) == labels).count();
            let mut next = 0;
            for line in text.lines() {
                if let Some(head) = line.strip_prefix("# TYPE ") {
                    let here = families.iter().position(|it| it.head == head).unwrap_or_else(|| {
                        families.insert(next, Family { head, samples: Vec::new() });
                        next
                    });
                    next = here + 1;
                } else if let Some(family) = families[..next].last_mut() {
                    family.samples.push((before, line));
                }
            }
        }
        families
    }
}

/// A text's lines of one name, of all pools.
struct Family<'a> {
    /// Its name and its kind, with a space between.
    head: &'a str,
    /// Each line, and how many pools of that name are ahead of its own.
    samples: Vec<(usize, &'a str)>,
}

/// The labels of a text's first figure: those of its pool alone.
fn labels_of(text: &str) -> &str {
    let figure = text.lines().find(|line| !line.starts_with('#')).unwrap_or_default();
    let behind = figure.split_once('{').map_or("", |(_, behind)| behind);
    behind.rsplit_once('}').map_or("", |(labels, _)| labels)
}

impl From<journal::Report<'_>> for Reports {
    fn from(report: journal::Report<'_>) -> Self {
        Self::of(&report, report.status)
    }
}

impl From<unmanaged_journal::Report<'_>> for Reports {
    fn from(report: unmanaged_journal::Report<'_>) -> Self {
        Self::of(&report, report.status)
    }
}

impl<R: Into<Reports>> Extend<R> for Reports {
    fn extend<I: IntoIterator<Item = R>>(&mut self, reports: I) {
        reports.into_iter().for_each(|it| self.push(it));
    }
}

impl<R: Into<Reports>> FromIterator<R> for Reports {
    fn from_iter<I: IntoIterator<Item = R>>(reports: I) -> Self {
        let mut all = Self::new();
        all.extend(reports);
        all
    }
}

impl fmt::Display for Reports {
    fn fmt(&self, f: &mut fmt::Formatter<'_>) -> fmt::Result {
        self.families().iter().try_for_each(|family| family.write(f))
    }
}

impl Family<'_> {
    fn write(&self, f: &mut fmt::Formatter<'_>) -> fmt::Result {
        let name = self.head.split(' ').next().unwrap_or_default();
        if let Some((_, help)) = HELP.iter().find(|(of, _)| *of == name) {
            writeln!(f, "# HELP {name} {help}")?;
        }
        writeln!(f, "# TYPE {}", self.head)?;
        self.samples.iter().try_for_each(|&(before, line)| write_sample(f, before, line))
    }
}

/// A pool that has another's name has a label more.
fn write_sample(f: &mut fmt::Formatter<'_>, before: usize, line: &str) -> fmt::Result {
    match line.split_once('{') {
        Some((name, rest)) if before > 0 => writeln!(f, "{name}{{nth=\"{}\",{rest}", before + 1),
        _ => writeln!(f, "{line}"),
    }
}
