//! The lines of the table.

use crate::pages::{absent_at_empty_homes, absent_at_hot_homes, of_hot, sharing_homes, Dice};
use crate::table::Table;
use crate::work::{Fill, Find, Header, List, RollbackAndRecord, Rollbacks, Search, Searched, ALL, BLOCK};

pub fn all(mut table: Table) {
    records(&mut table);
    lookups(&mut table);
    lists(&mut table);
    for (entries, blocks) in [(BLOCK, "1 block"), (ALL, "16 blocks")] {
        searches(&mut table, entries, blocks);
    }
    for hot in [1, 10, 100] {
        hot_pages(&mut table, hot);
    }
    table.header_line("commit", Header::Commit);
    table.header_line("acquire and release of the writer lock", Header::AcquireAndRelease);
    table.header_line("checkpoint number raised", Header::Bump);
    for n in [1, 4, 16, 64, 256] {
        readers(&mut table, n);
    }
    table.end();
}

fn records(table: &mut Table) {
    let mut dice = Dice(1);
    let fill = |pages| Fill { pages, times: 1 };
    table.line("record, 65,536 into 16 blocks, pages in order", fill((1..=ALL).collect()));
    table.line("record, 65,536 into 16 blocks, distinct pages", fill(dice.shuffled(1, ALL)));
    table.line("record, 65,536 into 16 blocks, 1,000 pages", fill(dice.any(ALL, 1000)));
    let pages = dice.shuffled(1, BLOCK + 8);
    let around = |bound| RollbackAndRecord { pages: pages.clone(), bound, times: 200 };
    table.line("rollback to 4,088 entries and 16 records", around(BLOCK - 8));
    table.line("rollback to 4,096 entries and 8 records", around(BLOCK));
    table.line("rollback to 4,103 entries and 1 record", around(BLOCK + 7));
    let pages = dice.shuffled(1, 1000);
    table.line("rollback to 992 entries and 8 records", RollbackAndRecord { pages, bound: 992, times: 500 });
}

fn lookups(table: &mut Table) {
    const WANTED: usize = 20_000;
    let mut dice = Dice(2);
    let (one, all) = (dice.shuffled(1, BLOCK), dice.shuffled(1, ALL));
    let absent = dice.shuffled(ALL + 1, ALL);
    let third: Vec<u64> = all.iter().chain(&absent).chain(&absent).copied().collect();
    let same_homes = sharing_homes(BLOCK, 16);
    let mut find = |entries: &[u64], of: &[u64], max, watermark| Find {
        entries: entries.to_vec(),
        wanted: dice.some_of(of, WANTED),
        max,
        watermark,
    };
    table.line("lookup of a present page, 1 block", find(&one, &one, u64::MAX, None));
    table.line("lookup of a present page, 16 blocks", find(&all, &all, u64::MAX, None));
    table.line("lookup of an absent page, 1 block", find(&one, &absent, u64::MAX, None));
    table.line("lookup of an absent page, 16 blocks", find(&all, &absent, u64::MAX, None));
    table.line("lookup, one third present, 16 blocks", find(&all, &third, u64::MAX, None));
    table.line("lookup of a present page, bound in the middle of 16 blocks", find(&all, &all, ALL / 2 + 9, None));
    table.line("lookup of a present page, watermark in the middle", find(&all, &all, u64::MAX, Some(ALL / 2 + 9)));
    table.line("lookup of a present page, 16 pages share a home", find(&same_homes, &same_homes, u64::MAX, None));
    table.line("lookup in an index of 10 entries", find(&one[..10], &one[..30], u64::MAX, None));
}

fn lists(table: &mut Table) {
    let mut dice = Dice(3);
    let all = dice.shuffled(1, ALL);
    let few = dice.any(ALL, 100);
    // Pages that use all 64 bits; a database has none, but the calls take them.
    let large = dice.any(ALL, u64::MAX);
    let list = |entries: &[u64], min, times| List { entries: entries.to_vec(), min, times };
    table.line("list, 65,536 distinct pages", list(&all, 1, 1));
    table.line("list, 65,536 pages of 64 bits", list(&large, 1, 1));
    table.line("list, 65,536 entries of 100 pages", list(&few, 1, 2));
    table.line("list, the last 10 frames of 65,536", list(&all, ALL - 9, 1));
    table.line("list, 4,096 distinct pages", list(&all[..4096], 1, 20));
    table.line("list, 100 entries", list(&all[..100], 1, 200));
    table.line("list, 100 entries, pages of 64 bits", list(&large[..100], 1, 200));
    table.line("list, 10 entries", list(&all[..10], 1, 200));
    table.line("list, 10 entries, pages of 64 bits", list(&large[..10], 1, 200));
    table.line("list, 1 entry", list(&all[..1], 1, 200));
}

/// Searches over the entries. They look at all of them for an absent page, and for the
/// nearest frame of any.
fn searches(table: &mut Table, count: u64, blocks: &str) {
    /// How many entries a run looks at, where it looks at all.
    const LOOKED_AT: u64 = 4_000_000;
    let mut dice = Dice(7);
    let (distinct, absent) = (dice.shuffled(1, count), dice.shuffled(count + 1, count));
    let (one, hundred) = (vec![1; count as usize], of_hot(&mut dice, 100, count));
    let last = &distinct[distinct.len() - 50..];
    let middle = count / 2;
    let (all, older) = (Searched::Between { min: 0, max: u64::MAX }, Searched::Between { min: 1, max: middle });
    let nearest = Searched::Nearest { to: middle };
    let whole = (LOOKED_AT / count) as usize;
    let mut line = |name: &str, entries: &[u64], of: &[u64], times: usize, kind| {
        let search = Search { entries: entries.to_vec(), wanted: dice.some_of(of, times), kind };
        table.search_line(&format!("{name}, {blocks}"), search);
    };
    line("frame between, absent page", &distinct, &absent, whole, all);
    line("frame between, page of the last 50 entries", &distinct, last, 5000, all);
    line("frame between, 100 hot pages", &hundred, &hundred, 5000, all);
    line("frame between, 100 hot pages, older frames", &hundred, &hundred, whole, older);
    line("nearest frame, absent page", &distinct, &absent, whole, nearest);
    line("nearest frame, page of the last 50 entries", &distinct, last, whole, nearest);
    line("nearest frame, 100 hot pages", &hundred, &hundred, whole, nearest);
    line("nearest frame, 1 hot page", &one, &one, whole, nearest);
}

/// A few pages that are written over and over. Of such a page's entries in a block each stands a cell behind the one
/// before, so the runs of used cells are long: calls take microseconds, and fewer of them are made.
fn hot_pages(table: &mut Table, hot: u64) {
    let mut dice = Dice(4);
    let (one, all) = (of_hot(&mut dice, hot, BLOCK), of_hot(&mut dice, hot, ALL));
    let plural = if hot == 1 { "" } else { "s" };
    let line = |name: &str| format!("{name}, {hot} hot page{plural}");

    let fill = |pages: &[u64]| Fill { pages: pages.to_vec(), times: 1 };
    table.line(&line("record, 4,096 into 1 block"), fill(&one));
    table.line(&line("record, 65,536 into 16 blocks"), fill(&all));

    let mut find = |entries: &[u64], of: &[u64], count| Find {
        entries: entries.to_vec(),
        wanted: dice.some_of(of, count),
        max: u64::MAX,
        watermark: None,
    };
    for (entries, blocks, count) in [(&one, "1 block", 400), (&all, "16 blocks", 100)] {
        table.line(&line(&format!("lookup of a present page, {blocks}")), find(entries, entries, 400));
        let absent = absent_at_hot_homes(hot);
        table.line(&line(&format!("lookup of an absent page at a hot home, {blocks}")), find(entries, &absent, count));
        let absent = absent_at_empty_homes(entries);
        table
            .line(&line(&format!("lookup of an absent page at an empty home, {blocks}")), find(entries, &absent, 5000));
    }

    let list = |entries: &[u64], times| List { entries: entries.to_vec(), min: 1, times };
    table.line(&line("list, 4,096 entries"), list(&one, 20));
    table.line(&line("list, 65,536 entries"), list(&all, 2));

    // Only the rollbacks are timed. Those by one entry come in turn: 4,096 to 4,095 entries, to 4,094, ..
    table.line(&line("rollback by 1 entry from a full block"), Rollbacks::by_one(one.clone(), 8));
    let half = Rollbacks { pages: one, bounds: vec![BLOCK / 2] };
    table.line(&line("rollback by 2,048 entries from a full block"), half);
}

fn readers(table: &mut Table, n: u32) {
    use crate::readers::{Table as Slots, Work};
    let all = n as usize;
    let many = all.min(64);
    let plural = if n == 1 { "" } else { "s" };
    let mut line = |name: &str, slots, work| table.readers_line(&format!("{name}, {n} slot{plural}"), slots, work);
    line("register and release, first slot free", Slots::new(n, 0), Work::RegisterAndRelease);
    if n > 1 {
        line("register and release, last slot free", Slots::new(n, all - 1), Work::RegisterAndRelease);
    }
    line("register, none free, last slot reclaimed", Slots::new(n, all - 1).with_stale_last(), Work::RegisterAnew);
    line("shared register and release, first holder", Slots::new(n, 0), Work::Share);
    line("shared register and release, second holder", Slots::new(n, 0), Work::Join);
    let mut live = vec![1, many, all];
    live.dedup();
    for live in live {
        line(&format!("floor, {live} live"), Slots::new(n, live), Work::Floor);
    }
    line(&format!("copy-back limit, {many} live"), Slots::new(n, many), Work::Limit);
    let db_file = Slots::new(n, many).with_db_file_reader();
    line(&format!("copy-back limit, {many} live, one of the database file"), db_file, Work::Limit);
    line(&format!("has_active_db_file_reader, {many} live"), Slots::new(n, many), Work::DbFileReader);
}
