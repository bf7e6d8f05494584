//! Setting the program under test against takeout's own answers, file by file.

use crate::answer::{answer, Told};
use crate::class::{grouped, Class, Codes};
use crate::draft::Visit;
use crate::file::{self, SiteFile};
use crate::search::chokes;
use crate::stream::Stream;
use crate::{damaged_links, damaged_records, damaged_trees, large_sites, sites};

/// Makes files and hands each on.
pub type Files = fn(Visit);

pub const ALL: [Class<Files>; 4] = [
    Class {
        things: "small sites",
        each: sites::small,
    },
    Class {
        things: "random sites",
        each: sites::random,
    },
    Class {
        things: "damaged files",
        each: damaged,
    },
    Class {
        things: "large sites and files",
        each: large,
    },
];

/// Damaged files of every kind that the codes of a file name (no file gives 2 or 6). What each has to be answered is the reader's to say: some come out
/// sound by chance, and they are as good a test.
fn damaged(visit: Visit) {
    damaged_records::all(visit);
    damaged_trees::all(visit);
    damaged_links::all(visit);
}

/// What may be slow to answer: the large sites, and the damaged files of thousands of machines.
fn large(visit: Visit) {
    large_sites::all(visit);
    damaged_trees::large(visit);
    damaged_links::large(visit);
}

/// Feeds the files of the classes to a program and ends at the first answer that differs.
pub fn compare(classes: &[Class<Files>], cmd: &str, args: &[&str]) {
    // Both sides make the files anew, so nothing is kept between them.
    let fed = classes.to_vec();
    let feed = move |visit: Visit| fed.iter().for_each(|class| (class.each)(visit));
    let mut stream = Stream::of(cmd, args, feed);
    let mut agreed = String::new();
    for class in classes {
        let mut tally = Tally::default();
        (class.each)(&mut |bytes| {
            let site = file::read(bytes);
            let told = answer(&site, chokes);
            let place = format!("file {} of the {}", grouped(tally.files + 1), class.things);
            stream.next(bytes, &told, &place);
            tally.count(&site, &told);
        });
        agreed += &tally.line(class);
    }
    stream.ended();
    print!("{agreed}");
}

/// What has agreed in a class.
#[derive(Default)]
struct Tally {
    files: usize,
    reports: usize,
    cross_links: usize,
    codes: Codes,
}

impl Tally {
    fn count(&mut self, site: &SiteFile, told: &Told) {
        self.files += 1;
        self.reports += site.reports.len();
        self.cross_links += told.taken_out;
        self.codes
            .count(site.refusal.map_or(0, |refusal| refusal.code));
    }

    fn line(&self, class: &Class<Files>) -> String {
        format!(
            "takeout: {} {} agreed ({} reports; {} cross links taken out, none a choke; {})\n",
            grouped(self.files),
            class.things,
            grouped(self.reports),
            grouped(self.cross_links),
            self.codes.line()
        )
    }
}
