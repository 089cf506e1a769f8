//! Wrong simple recoveries, as edits of docs/src/recovery.rs: of each its name, the words of the records for which it is wrong, what it
//! replaces, which stands there once, and by what.

const FIVE: &[usize] = &[5];
const FOUR: &[usize] = &[4];
const BOTH: &[usize] = &[5, 4];

pub const MUTANTS: &[(&str, &[usize], &str, &str)] = &[
    // Which sizes there are, and which slots are sound.
    ("takes_257_pages", BOTH, "const MOST_PAGES: usize = 256;", "const MOST_PAGES: usize = 257;"),
    ("refuses_256_pages", BOTH, "(1..=MOST_PAGES).contains(&pages)", "(1..MOST_PAGES).contains(&pages)"),
    ("takes_1025_slots", BOTH, "const MOST_SLOTS: usize = 1024;", "const MOST_SLOTS: usize = 1025;"),
    ("takes_no_page", BOTH, "(1..=MOST_PAGES).contains(&pages)", "pages <= MOST_PAGES"),
    ("takes_fewer_slots_than_pages", BOTH, "(pages..=MOST_SLOTS).contains(&slots)", "slots <= MOST_SLOTS"),
    ("takes_other_widths", BOTH, "&& (width == 32 || width == 64)", ""),
    ("refuses_width_64", BOTH, "(width == 32 || width == 64)", "width == 32 && width < 64"),
    ("takes_any_sheet", BOTH, "sheet.len() == PAGE_WORDS * pages", "sheet.len() >= PAGE_WORDS * pages"),
    ("looks_at_the_contents_of_four_words", FOUR, "self.family == Family::FourWords || self.contents", "self.contents"),
    ("takes_a_link_past_the_pages", BOTH, "p < pages && np < pages", "p < pages && np <= pages"),
    ("takes_a_version_of_no_record", BOTH, "v < NONE && c < NONE", "c < NONE"),
    ("takes_a_link_to_no_version", BOTH, "nv < NONE && (c < v", "(c < v"),
    ("takes_c_equal_to_v", FIVE, "(c < v || (c == 0 && v == 0))", "(c <= v || (c == 0 && v == 0))"),
    ("refuses_version_0", BOTH, "(c < v || (c == 0 && v == 0))", "c < v"),
    ("takes_any_link_to_itself", BOTH, "&& (np != p || nv == v)", ""),
    ("stops_at_a_blank_slot", BOTH, "else { continue };", "else { break };"),
    // The highest records, and what is used.
    ("takes_the_first_record_for_the_highest", BOTH, "other.v < record.v)", "false)"),
    ("takes_the_lowest_record_for_the_highest", BOTH, "other.v < record.v)", "other.v > record.v)"),
    ("compares_signed", BOTH, "other.v < record.v)", "(other.v as i32) < record.v as i32)"),
    ("takes_used_from_versions_alone", BOTH, "[(record.p, record.v), (record.np, record.nv)]", "[(record.p, record.v)]"),
    ("takes_used_from_links_alone", BOTH, "[(record.p, record.v), (record.np, record.nv)]", "[(record.np, record.nv)]"),
    // Equal page and version.
    ("drops_the_twin_rule", FIVE, "&& !twins(volume, one, other)", ""),
    ("takes_twins_by_their_words", FIVE, "&& volume.bytes(*k) == volume.bytes(*l)", ""),
    ("takes_twins_by_their_bytes", FIVE, "volume.family == Family::FiveWords && one == other && volume", "volume"),
    (
        "takes_four_words_for_twins",
        FOUR,
        "volume.family == Family::FiveWords && one == other && volume.bytes(*k) == volume.bytes(*l)",
        "one == other",
    ),
    ("looks_for_no_clash", BOTH, "if clash(volume, &records)", "if false"),
    ("compares_no_neighbours", BOTH, "&records[i + 1..] {", "records.iter().skip(i + 2) {"),
    ("compares_the_last_with_none", BOTH, "&records[i + 1..] {", "&records[i + 1..records.len().max(i + 2) - 1] {"),
    ("starts_the_clashes_one_late", BOTH, "records.iter().enumerate() {", "records.iter().enumerate().skip(1) {"),
    ("takes_a_missing_page_for_14", BOTH, "collect::<Option<_>>().ok_or(3u32)", "collect::<Option<_>>().ok_or(14u32)"),
    // The three cases.
    ("straddles_at_c", FIVE, "self.c < i.nv", "self.c <= i.nv"),
    ("straddles_at_v", FIVE, "i.nv < self.v", "i.nv <= self.v"),
    ("straddles_from_any_page", FIVE, "self.p == i.np && self.c", "self.c"),
    ("straddles_by_version_alone", FIVE, "self.c < i.nv && ", ""),
    ("skips_the_first_slot_for_straddlers", FIVE, "records.iter().any(", "records.iter().skip(1).any("),
    ("skips_the_last_slot_for_straddlers", FIVE, "records.iter().any(", "records[..records.len() - 1].iter().any("),
    ("looks_at_the_highest_for_straddlers", FIVE, "records.iter().any(|&(_, k)| k.straddles(j))", "next.straddles(j)"),
    ("straddles_four_words", FOUR, "family == Family::FiveWords && records.iter()", "records.iter()"),
    ("calls_a_broken_ring_uncommitted", BOTH, "committed: !straddled", "committed: false"),
    ("calls_a_broken_ring_committed", FIVE, "committed: !straddled", "committed: true"),
    ("calls_a_missing_version_committed", BOTH, "committed: false", "committed: true"),
    ("calls_a_ring_uncommitted", BOTH, "committed: true", "committed: false"),
    ("stops_at_the_starts_page", FIVE, "if j.nv < next.v {", "if j.nv < next.v && j.np as usize != start {"),
    ("needs_a_link_to_spare", BOTH, "1..=highest.len() as u32", "1..highest.len() as u32"),
    ("calls_links_astray_14", BOTH, ".ok_or(4u32)", ".ok_or(14u32)"),
    // The links.
    ("counts_no_return", BOTH, "committed: true, links", "committed: true, links: links - 1"),
    ("counts_no_link_to_a_missing_version", BOTH, "committed: false, links", "committed: false, links: links - 1"),
    ("counts_no_link_to_an_older_version", BOTH, "committed: !straddled, links", "committed: !straddled, links: links - 1"),
    ("counts_the_longest_walk", BOTH, "links += walk.links", "links = walk.links.max(links)"),
    ("counts_pages", BOTH, "links += walk.links", "links += 1"),
    // The committed version, and the sheet.
    ("takes_the_highest_always", BOTH, "if complete[page] {", "if true {"),
    ("needs_no_record_of_c", FIVE, "versions.find(|&v| v == highest.c)", "Some(highest.c)"),
    ("takes_the_second_highest_of_another_page", FOUR, "r.p == highest.p", "r.p == highest.np"),
    ("looks_for_c_in_another_page", FIVE, "r.p == highest.p", "r.p == highest.np"),
    ("takes_the_highest_for_the_second", FOUR, "v < highest.v", "v <= highest.v"),
    ("takes_the_lowest_for_the_second", FOUR, ".filter(|&v| v < highest.v).max()", ".min()"),
    ("fills_before_it_refuses", BOTH, "let own = highest[page];", "let own = highest[page];\n        sheet[PAGE_WORDS * page] = own.v;"),
    ("leaves_pages_in_flight", BOTH, "used[page], NONE, 0]", "used[page], page as u32, 0]"),
    ("leaves_pages_written", BOTH, "used[page], NONE, 0]", "used[page], NONE, 1]"),
    (
        "leaves_the_last_page",
        BOTH,
        ".chunks_exact_mut(PAGE_WORDS).enumerate()",
        ".chunks_exact_mut(PAGE_WORDS).enumerate().take(pages - 1)",
    ),
];
