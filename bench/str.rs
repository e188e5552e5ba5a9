//! Answers questions of the test vectors by the calls of `str`, `String` and `char`, and compares the answers with the
//! recorded ones. `bench/str` builds and runs it. README.md of crates/widestring_replay explains a line of the files,
//! and `src/groups/` of crates/widestring_vectors, crates/widestring_search_vectors and
//! crates/widestring_string_vectors their questions.

mod str_owned;
mod str_words;

use std::hash::{BuildHasher, BuildHasherDefault, DefaultHasher};
use std::process::ExitCode;
use std::{env, fs, path::Path};
use str_words::*;

/// The groups, by the names of their files with or without a width, and how each answers a question.
const GROUPS: [(&str, fn(&Question) -> Answer); 35] = [
    ("splits", splits),
    ("backs", backs),
    ("terminated", terminated),
    ("ends", ends),
    ("sets", sets),
    ("words", words),
    ("trims", trims),
    ("nocase", nocase),
    ("replaced", replaced),
    ("searches", searches),
    ("matches", matches),
    ("case", case),
    ("texts", texts),
    ("compare", compare),
    ("units", units),
    ("items", characters),
    ("lossy", characters),
    ("each", characters),
    ("run", characters),
    ("skip", characters),
    ("encode32", characters),
    ("encode16", encode16),
    ("encode8", encode8),
    ("offsets", offsets),
    ("to_string", to_string),
    ("lossy_text", lossy_text),
    ("pop", str_owned::pop),
    ("insert", str_owned::insert),
    ("remove", str_owned::remove),
    ("replace", str_owned::replace),
    ("split_off", str_owned::split_off),
    ("drain", str_owned::drain),
    ("retain", str_owned::retain),
    ("utfstring", str_owned::utfstring),
    ("edits", str_owned::edits),
];

// ---- groups of questions about a view

fn splits(question: &Question) -> Answer {
    let (view, rest) = question.view()?;
    let (letter, rest) = cut(rest, ' ');
    let (separator, most) = cut(rest, ':');
    let (separator, text) = (view.separator(letter, separator)?, view.text.as_str());
    let found: Vec<&str> = match most {
        "-" => with_separator!(&separator, pattern, text.split(pattern).collect()),
        _ => with_separator!(&separator, pattern, text.splitn(number(most), pattern).collect()),
    };
    Ok(view.width.fields(&found))
}

fn backs(question: &Question) -> Answer {
    let (view, rest) = question.view()?;
    let (letters, rest) = cut(rest, ' ');
    let (way, letter) = letters.split_at(1);
    let (separator, most) = cut(rest, ':');
    let (separator, text) = (view.separator(letter, separator)?, view.text.as_str());
    let found: Vec<&str> = match (way, most) {
        ("i", "-") => with_separator!(&separator, pattern, text.split_inclusive(pattern).collect()),
        ("r", "-") => with_separator!(&separator, pattern, text.rsplit(pattern).collect()),
        ("r", _) => with_separator!(&separator, pattern, text.rsplitn(number(most), pattern).collect()),
        _ => return Err(NoCall),
    };
    Ok(view.width.fields(&found))
}

fn terminated(question: &Question) -> Answer {
    let (view, rest) = question.view()?;
    let (letter, words) = cut(rest, ' ');
    let separator = view.separator(letter, words)?;
    let found: Vec<&str> = with_separator!(&separator, pattern, view.text.split_terminator(pattern).collect());
    Ok(view.width.fields(&found))
}

type FromBothEnds<'t> = Box<dyn DoubleEndedIterator<Item = &'t str> + 't>;

fn ends(question: &Question) -> Answer {
    let (view, rest) = question.view()?;
    let (letters, rest) = cut(rest, ' ');
    let (separator, calls) = cut(rest, ':');
    let (width, text) = (view.width, view.text.as_str());
    if letters == "m" {
        let place = |(at, part): (usize, &str)| format!("{:X} {}", width.length(&text[..at]), width.words(part));
        return Ok(taken(text.match_indices(char_of(separator)?), calls, place).join(";"));
    }
    let (way, by) = match letters {
        "e" | "i" => (letters, "c"),
        "es" | "is" => letters.split_at(1),
        _ => ("", letters),
    };
    let some = set(by, separator)?;
    let found: FromBothEnds = match (way, by) {
        ("", "w") => Box::new(text.split_whitespace()),
        ("", _) => with_set!(&some, pattern, Box::new(text.split(pattern))),
        ("e", _) => with_set!(&some, pattern, Box::new(text.split_terminator(pattern))),
        _ => with_set!(&some, pattern, Box::new(text.split_inclusive(pattern))),
    };
    Ok(taken(found, calls, |part| width.words(part)).join(";"))
}

fn sets(question: &Question) -> Answer {
    let (view, rest) = question.view()?;
    let (letter, words) = cut(rest, ' ');
    let (some, text, width) = (set(letter, words)?, view.text.as_str(), view.width);
    let first = with_set!(&some, pattern, text.find(pattern));
    let found: Vec<&str> = with_set!(&some, pattern, text.split(pattern).collect());
    Ok(format!("{};{}", shown(first, |at| format!("{:X}", width.length(&text[..at]))), width.fields(&found)))
}

fn words(question: &Question) -> Answer {
    let (view, letter) = question.view()?;
    let found: Vec<&str> = match letter {
        "w" => view.text.split_whitespace().collect(),
        _ => view.text.split_ascii_whitespace().collect(),
    };
    Ok(view.width.fields(&found))
}

fn trims(question: &Question) -> Answer {
    let (view, rest) = question.view()?;
    let (letter, words) = cut(rest, ' ');
    let text = view.text.as_str();
    let found = match letter {
        "-" => [text.trim_start(), text.trim_end(), text.trim()],
        _ => with_set!(&set(letter, words)?, pattern, {
            [text.trim_start_matches(pattern), text.trim_end_matches(pattern), text.trim_matches(pattern)]
        }),
    };
    Ok(found.map(|part| view.width.words(part)).join(";"))
}

fn nocase(question: &Question) -> Answer {
    let (view, rest) = question.view()?;
    let needle = view.other(rest)?;
    let (text, length) = (view.text.as_str(), needle.len());
    let (lower, sought) = (text.to_ascii_lowercase(), needle.to_ascii_lowercase());
    let head = text.get(..length);
    let tail = text.len().checked_sub(length).and_then(|start| text.get(start..));
    let [begins, ends] = [head, tail].map(|part| decided(part.is_some_and(|part| part.eq_ignore_ascii_case(&needle))));
    let first = shown(lower.find(&sought), |at| format!("{:X}", view.width.length(&text[..at])));
    Ok(format!("{} {begins} {ends} {first}", decided(lower.contains(&sought))))
}

fn matches(question: &Question) -> Answer {
    let (view, rest) = question.view()?;
    let (letter, words) = cut(rest, ' ');
    let (needle, text, width) = (view.separator(letter, words)?, view.text.as_str(), view.width);
    let places: Vec<(usize, &str)> = with_separator!(&needle, pattern, text.match_indices(pattern).collect());
    let parts: Vec<&str> = with_separator!(&needle, pattern, text.matches(pattern).collect());
    let place = |(at, part): &(usize, &str)| format!(";{:X} {}", width.length(&text[..*at]), width.words(part));
    let placed = places.iter().map(place).collect::<String>();
    Ok(format!("{:X}{placed};{}", places.len(), width.fields(&parts)))
}

fn case(question: &Question) -> Answer {
    let (view, rest) = question.view()?;
    let (call, other) = cut(rest, ' ');
    match call {
        "ascii" => Ok(decided(view.text.is_ascii())),
        "lower" => Ok(view.width.words(&view.text.to_ascii_lowercase())),
        "upper" => Ok(view.width.words(&view.text.to_ascii_uppercase())),
        "same" => Ok(decided(view.text.eq_ignore_ascii_case(&view.other(other)?))),
        "order" => Ok(order_word(view.text.cmp(&view.other(other)?))),
        _ => Err(NoCall),
    }
}

// ---- groups of other questions about units

fn replaced(question: &Question) -> Answer {
    let (letter, rest) = cut(question.asked, ' ');
    let (needle, rest) = cut(rest, ':');
    let (by, how) = cut(rest, ':');
    // A C string is its units without the NUL at the end.
    let own = |units: &[u32]| match letter {
        "z" => question.width.text(units.strip_suffix(&[0]).expect("a NUL")),
        _ => question.width.text(units),
    };
    let (text, by) = (own(question.list)?, own(&list(by))?);
    let needle = match letter {
        "c" => Separator::Of(set("c", needle)?),
        _ => Separator::Text(own(&list(needle))?),
    };
    if matches!(&needle, Separator::Text(text) if text.is_empty()) {
        return Err(EmptyNeedle);
    }
    let made = match how {
        "-" | "i" => with_separator!(&needle, pattern, text.replace(pattern, &by)),
        _ => with_separator!(&needle, pattern, text.replacen(pattern, &by, number(how))),
    };
    Ok(question.width.words(&made))
}

/// Returns what searches for a needle and a character find.
fn found(width: Width, text: &str, needle: &str, c: char) -> String {
    let place = |at: Option<usize>| shown(at, |at| format!("{:X}", width.length(&text[..at])));
    let length = |part: Option<&str>| shown(part, |part| format!("{:X}", width.length(part)));
    let halves = |both: Option<(&str, &str)>| match both {
        Some((before, after)) => width.lengths([before, after].into_iter()),
        None => "- -".to_string(),
    };
    [
        decided(text.contains(needle)),
        decided(text.starts_with(needle)),
        decided(text.ends_with(needle)),
        place(text.find(needle)),
        place(text.rfind(needle)),
        place(text.find(c)),
        place(text.rfind(c)),
        length(text.strip_prefix(needle)),
        length(text.strip_suffix(needle)),
        halves(text.split_once(needle)),
        halves(text.rsplit_once(needle)),
    ]
    .join(" ")
}

fn searches(question: &Question) -> Answer {
    let (needle, rest) = cut(question.asked, ':');
    let (c, at) = cut(rest, ':');
    let (width, text, sought) = (question.width, question.text()?, list(needle));
    let (needle, c) = (width.text(&sought)?, char_of(c)?);
    let place = |at: usize| format!("{:X}", width.length(&text[..at]));
    let both = |unit| format!("{} {}", shown(text.find(unit), place), shown(text.rfind(unit), place));
    let first_unit = match sought.first().map(|&unit| char::from_u32(unit)) {
        None => String::new(),
        Some(None) => UNKNOWN.to_string(),
        Some(Some(unit)) => both(unit),
    };
    let cut_at_needle = match needle.as_str() {
        "" => UNKNOWN.to_string(),
        needle => width.lengths(text.split(needle)),
    };
    let cut_at_char = width.lengths(text.split(c));
    let at = width.byte_offset(&text, number(at));
    let bounds = format!("{} {}", place(text.floor_char_boundary(at)), place(text.ceil_char_boundary(at)));
    let found = found(width, &text, &needle, c);
    Ok([found.clone(), cut_at_needle.clone(), first_unit, found, cut_at_needle, cut_at_char, bounds].join(";"))
}

/// Returns the order of texts by units, which is that of `str` unless there are pairs of surrogates.
fn order(width: Width, text: &str, other: &str) -> Answer {
    if has_pairs(width, text) || has_pairs(width, other) {
        return Err(NoCall);
    }
    Ok(order_word(text.cmp(other)))
}

/// Returns debug text, in which this library, as the Rust crate, escapes a single quote, and `str` doesn't.
fn debug_text(text: &str) -> Answer {
    if text.contains('\'') {
        return Err(NoCall);
    }
    Ok(chars_word(&format!("{text:?}")))
}

fn chars_word(text: &str) -> String {
    Bits32.words(text)
}

fn texts(question: &Question) -> Answer {
    let (width, text) = (question.width, question.text()?);
    let mut rest = question.asked.chars();
    let letter = rest.next().ok_or(NoCall)?;
    let other = || width.text(&list(rest.as_str()));
    let offset = |line: &str| width.length(&text[..line.as_ptr() as usize - text.as_ptr() as usize]) as u32;
    let with_offset = |line| hexes([offset(line)].into_iter().chain(width.units(line)));
    match letter {
        'l' | 'L' => Ok(text.lines().map(|line| width.words(line) + ";").collect()),
        'i' | 'I' => Ok(text.lines().map(|line| with_offset(line) + ";").collect()),
        't' => Ok(width.words(text.trim())),
        '<' => Ok(width.words(text.trim_start())),
        '>' => Ok(width.words(text.trim_end())),
        'g' | 'f' => debug_text(&text),
        'G' => debug_text(&(text + "\0")),
        'p' | 'P' => Ok(chars_word(&text.to_string())),
        'd' => Ok(chars_word(&text.escape_debug().to_string())),
        'e' => Ok(chars_word(&text.escape_default().to_string())),
        'u' => Ok(chars_word(&text.escape_unicode().to_string())),
        // `str` alone has another small letter for a capital sigma at the end of a word.
        'w' if text.contains('Σ') => Err(NoCall),
        'w' => Ok(width.words(&text.to_lowercase())),
        'W' => Ok(width.words(&text.to_uppercase())),
        'c' | 'k' => order(width, &text, &other()?),
        'x' => Ok(decided(text == other()?)),
        _ => Err(NoCall),
    }
}

fn compare(question: &Question) -> Answer {
    let (kind, other) = cut(question.asked, ' ');
    let (width, text) = (question.width, question.text()?);
    let other = width.text(&list(other))?;
    let is_same = decided(text == other);
    let hash = |text: &str| BuildHasherDefault::<DefaultHasher>::default().hash_one(text);
    let has_same_hash = decided(hash(&text) == hash(&other));
    let order = || order(width, &text, &other);
    match kind {
        "str" | "chars" => Ok(is_same),
        "units" | "text" => Ok(format!("{is_same} {} {has_same_hash}", order()?)),
        "unit_string" | "string" => Ok(format!("{is_same} {} {has_same_hash} 1", order()?)),
        _ => Err(NoCall),
    }
}

fn units(question: &Question) -> Answer {
    let (word, rest) = cut(question.asked, ' ');
    let (width, text) = (question.width, question.text()?);
    match word {
        "char" => {
            let units = width.words(char_of(rest)?.encode_utf8(&mut [0; 4]));
            Ok(format!("{:X} {units}", units.split(' ').count()))
        }
        "nul" => Ok(shown(text.find('\0'), |at| format!("{:X}", width.length(&text[..at])))),
        "line" => Ok(shown(text.split_inclusive('\n').next().zip(text.lines().next()), |(whole, line)| {
            format!("{};{}", width.words(line), width.words(&text[whole.len()..]))
        })),
        "same" => Ok(decided(text == width.text(&list(rest))?)),
        "order" => order(width, &text, &width.text(&list(rest))?),
        _ => Err(NoCall),
    }
}

// ---- groups about characters and conversions

fn characters(question: &Question) -> Answer {
    Ok(taken(question.text()?.chars(), question.asked, char_word).join(" "))
}

fn encode16(question: &Question) -> Answer {
    Ok(Bits16.words(&Bits32.text(question.list)?))
}

fn bytes_word(text: &str) -> String {
    hexes(text.bytes().map(u32::from))
}

fn encode8(question: &Question) -> Answer {
    Ok(bytes_word(&Bits32.text(question.list)?))
}

fn to_string(question: &Question) -> Answer {
    if question.asked != "s" {
        return Err(NoCall);
    }
    Ok(bytes_word(&question.text()?))
}

fn lossy_text(question: &Question) -> Answer {
    let text = question.text()?;
    match question.asked {
        "l" | "le" | "lr" | "ls" => Ok(format!("b {}", question.width.words(&text)).trim_end().to_string()),
        "y" | "ye" | "yr" | "ys" => Ok(bytes_word(&text)),
        _ => Err(NoCall),
    }
}

fn offsets(question: &Question) -> Answer {
    let (width, text) = (question.width, question.text()?);
    let mut items = text.char_indices();
    let word_at = |call| {
        let item = if call == 'F' { items.next() } else { items.next_back() };
        let word = shown(item, |(at, c)| format!("{:X}:{}", width.length(&text[..at]), char_word(c)));
        format!("{word}@{:X}", width.length(&text[..items.offset()]))
    };
    Ok(question.asked[1..].chars().map(word_at).collect::<Vec<String>>().join(" "))
}

// ---- files of questions

/// How many questions were judged, how many answers of these differ, and how many were not judged, for each reason.
#[derive(Default)]
struct Counts {
    judged: usize,
    differ: usize,
    unjudged: [usize; 4],
}

impl Counts {
    fn all_unjudged(&self) -> usize {
        self.unjudged.iter().sum()
    }

    fn add(&mut self, other: &Counts) {
        self.judged += other.judged;
        self.differ += other.differ;
        self.unjudged.iter_mut().zip(other.unjudged).for_each(|(sum, count)| *sum += count);
    }
}

/// Returns how a file's group answers questions.
fn group_of(name: &str) -> Option<fn(&Question) -> Answer> {
    let group = |name: &str| GROUPS.iter().find(|(group, _)| *group == name).map(|(_, answer)| *answer);
    group(name).or_else(|| group(name.trim_end_matches(char::is_numeric)))
}

/// Returns whether all fields of an answer that std has are those that are recorded.
fn agrees(answer: &str, recorded: &str) -> bool {
    let (ours, theirs): (Vec<&str>, Vec<&str>) = (answer.split(';').collect(), recorded.split(';').collect());
    ours.len() == theirs.len() && ours.iter().zip(theirs).all(|(&our, their)| our == UNKNOWN || our == their)
}

/// Judges the cases of a line, and prints the first of the file that differs.
fn judge(name: &str, line: &str, counts: &mut Counts) {
    let (units, cases) = cut(line, '|');
    let width = if name.ends_with("32") { Bits32 } else { Bits16 };
    for case in cases.split('|') {
        let (asked, recorded) = case.split_once('=').expect("a question and its answer");
        let recorded = cut(recorded, '~').0;
        let answer = group_of(name).map_or(Err(OtherGroup), |answer| answer(&Question { width, list: &list(units), asked }));
        match answer {
            Ok(answer) => {
                counts.judged += 1;
                counts.differ += usize::from(!agrees(&answer, recorded));
                if counts.differ == 1 && !agrees(&answer, recorded) {
                    println!("first difference of {name}: {units}|{asked}={recorded}, and std has {answer}");
                }
            }
            Err(reason) => counts.unjudged[reason as usize] += 1,
        }
    }
}

fn judge_file(path: &Path) -> Counts {
    let name = path.file_stem().and_then(|name| name.to_str()).expect("a file's name");
    let mut counts = Counts::default();
    fs::read_to_string(path).expect("a file of questions").lines().for_each(|line| judge(name, line, &mut counts));
    if counts.judged > 0 {
        println!("{name}: {} judged, {} differ; {} not judged", counts.judged, counts.differ, counts.all_unjudged());
    }
    counts
}

fn main() -> ExitCode {
    let folder = env::args().nth(1).expect("a folder");
    let entries = fs::read_dir(folder).expect("a folder of questions");
    let mut paths: Vec<_> = entries.map(|entry| entry.expect("a file").path()).collect();
    paths.retain(|path| path.extension().is_some_and(|extension| extension == "txt"));
    paths.sort();
    let mut sum = Counts::default();
    paths.iter().for_each(|path| sum.add(&judge_file(path)));
    let [ill_formed, empty_needles, no_calls, other_groups] = sum.unjudged;
    println!(
        "{} not judged: {ill_formed} of ill-formed units, {empty_needles} with an empty needle, \
         {no_calls} that std has no call for, {other_groups} of other groups",
        sum.all_unjudged()
    );
    println!("{} judged, {} differ", sum.judged, sum.differ);
    ExitCode::from(u8::from(sum.differ > 0 || sum.judged == 0))
}
