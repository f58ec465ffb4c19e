//! "The Master Relation Chunk."

use std::fmt::Debug;

use plain::{append, relations_check, relations_check_latest, relations_write, Serial};

use crate::calls::{description, lent};
use crate::padded::other;
use crate::{chunk_header, closed, depending, file, header, serial, with};

const TEST: &str = "ADS\\DATA\\TEST";
const EDIT: &str = "ADS\\DATA\\EDIT";
const RELATIONS: &str = "ADS\\SYS\\Relations";

/// A line of chapter 7: its five texts and the tabs between them.
const HEADING: &str = "ADS Metafile Master Relation Chunk Revision 1.00\tChild serial number\tChild sub-format ID\t\
                       Parent serial number\tParent sub-format ID";

/// Row 0 without parents; row 1 depends on it, on a missing one and on a later one, with another name; row 2 on row 0.
fn family() -> Vec<Vec<u8>> {
    let parents = [(serial(42), TEST), (serial(99), "GONE"), (serial(44), "OTHER NAME")];
    vec![
        depending(42, TEST, &[], b"first"),
        depending(43, EDIT, &parents, b"second"),
        depending(44, EDIT, &[(serial(42), TEST)], b""),
    ]
}

fn relation(child: &Serial, child_format: &str, parent: &Serial, parent_format: &str) -> String {
    let (child, parent) = (std::str::from_utf8(child).unwrap(), std::str::from_utf8(parent).unwrap());
    format!("ADS relation\t{child}\t{child_format:256}\t{parent}\t{parent_format:256}")
}

/// The heading and lines, each with its LF.
fn lined(lines: &[String]) -> String {
    [&[HEADING.to_string()], lines].concat().iter().map(|line| format!("{line}\n")).collect()
}

/// The text for a file, into a buffer that is longer, and one that is just as long; one that is shorter gets 18.
fn written(file: &[u8]) -> String {
    let mut buffer = vec![b'?'; 20_000];
    let length = relations_write(file, &mut buffer).unwrap();
    assert!(buffer[length..].iter().all(|&byte| byte == b'?'));
    let mut exact = vec![b'?'; length];
    assert_eq!(relations_write(file, &mut exact), Ok(length));
    let mut short = vec![b'?'; length - 1];
    assert_eq!(relations_write(file, &mut short), Err(18));
    assert!(exact == buffer[..length] && short.iter().all(|&byte| byte == b'?'));
    String::from_utf8(exact).unwrap()
}

/// What a check answers and writes, into a list that is longer, and one that is just as long; one that is shorter gets 18.
fn listed<T: Copy + Debug + PartialEq>(
    check: impl Fn(&mut [u32]) -> Result<T, u8>,
    count: impl Fn(T) -> usize,
) -> Result<(T, Vec<u32>), u8> {
    let mut list = vec![7; 30];
    let answer = check(&mut list);
    let count = answer.map_or(0, count);
    assert!(list[count..].iter().all(|&entry| entry == 7));
    let mut exact = vec![7; count];
    assert_eq!(check(&mut exact), answer);
    assert_eq!(exact, list[..count]);
    if count > 0 {
        let mut short = vec![7; count - 1];
        assert_eq!(check(&mut short), Err(18));
        assert!(short.iter().all(|&entry| entry == 7));
    }
    answer.map(|answer| (answer, exact))
}

/// The verdicts on a row.
fn checked(file: &[u8], row: usize) -> Result<Vec<u32>, u8> {
    listed(|list| relations_check(file, row, list), |count| count).map(|(_, verdicts)| verdicts)
}

/// The verdicts on contents that stand as row 3 behind the family.
fn verdicts(contents: &str) -> Result<Vec<u32>, u8> {
    let relations = depending(50, RELATIONS, &[], contents.as_bytes());
    checked(&file(&[family(), vec![relations]].concat()), 3)
}

/// The verdict on one line behind the heading, with its LF and without.
fn verdict(line: &str) -> Option<u32> {
    let verdicts = verdicts(&format!("{HEADING}\n{line}\n"));
    assert_eq!(verdicts, self::verdicts(&format!("{HEADING}\n{line}")));
    let verdicts = verdicts.unwrap();
    assert!(verdicts.len() < 2);
    verdicts.first().copied()
}

/// Row 1 on row 0.
fn declared() -> String {
    relation(&serial(43), EDIT, &serial(42), TEST)
}

#[test]
fn written_and_checked() {
    let lines = [
        declared(),
        relation(&serial(43), EDIT, &serial(99), "GONE"),
        relation(&serial(43), EDIT, &serial(44), "OTHER NAME"),
        relation(&serial(44), EDIT, &serial(42), TEST),
    ];
    let text = lined(&lines);
    assert_eq!(written(&file(&family())), text);
    assert_eq!((HEADING.len() + 1, text.len()), (131, 131 + 4 * 605));
    assert_eq!(verdicts(&text), Ok(vec![1; 4]));
    // "The order of lines within the file is not defined, other than the first line"
    let [one, two, three, four] = lines;
    assert_eq!(verdicts(&lined(&[four.clone(), two, four, three, one])), Ok(vec![1; 5]));
}

/// "the first of which will declare the meaning of the line": the name is the whole first field.
#[test]
fn names_of_lines() {
    for comment in ["", "a comment", "ADS relationship", "ADS relation ", " ADS relation", "ads relation", HEADING] {
        assert_eq!(verdict(comment), None, "{comment}");
        assert_eq!(verdict(&declared().replacen("ADS relation", comment, 1)), None, "{comment}");
    }
    assert_eq!(verdict(&declared().replacen("relation\t#", "relation#", 1)), None);
    assert_eq!(verdict(&declared()), Some(1));
    assert_eq!((verdict("ADS relation"), verdict("ADS relation\t")), (Some(3), Some(3)));
}

/// "five well-formed fields"
#[test]
fn malformed() {
    let line = declared();
    for (field, change) in [(1, "a serial number"), (2, "a sub-format"), (3, "a serial number"), (4, "a sub-format")] {
        let changed = |new: &dyn Fn(&str) -> String| {
            let mut fields: Vec<String> = line.split('\t').map(str::to_string).collect();
            fields[field] = new(&fields[field]);
            verdict(&fields.join("\t"))
        };
        assert_eq!(changed(&|_| String::new()), Some(3), "{change}");
        assert_eq!(changed(&|old| old[1..].to_string()), Some(3), "{change}");
        assert_eq!(changed(&|old| old.trim_end().to_string() + "\r"), Some(3), "{change}");
        assert_eq!(changed(&|old| format!("{old} ")), Some(3), "{change}");
        assert_eq!(changed(&|old| format!("\x1f{}", &old[1..])), Some(3), "{change}");
        assert_eq!(changed(&|old| format!("{}\x7f", &old[1..])), Some(3), "{change}");
        assert_eq!(changed(&|old| format!("{}\t", &old[1..])), Some(3), "{change}");
    }
    // without its trailing spaces; a sixth field, an empty one too; CR LF; the tab that chapter 7 doesn't print
    assert_eq!(verdict(line.trim_end()), Some(3));
    assert_eq!((verdict(&format!("{line}\t")), verdict(&format!("{line}\tsixth"))), (Some(3), Some(3)));
    assert_eq!(verdict(&format!("{line}\r")), Some(3));
    let (before, last) = line.rsplit_once('\t').unwrap();
    assert_eq!(verdict(&format!("{before}{last}")), Some(3));
    // a serial number's own form: its date, its check
    assert_eq!(verdict(&line.replace("#20240229", "#20230229")), Some(3));
    assert_eq!(verdict(&line.replace("42001", "42002")), Some(3));
}

/// "whether some row's header declares exactly that dependency"
#[test]
fn declared_or_not() {
    let [first, second, missing] = [serial(42), serial(43), serial(99)];
    for (line, number) in [
        (relation(&second, EDIT, &first, TEST), 1),
        // the parent is missing, and the header declares it all the same
        (relation(&second, EDIT, &missing, "GONE"), 1),
        (relation(&second, TEST, &first, TEST), 2),
        (relation(&second, EDIT, &first, EDIT), 2),
        (relation(&second, EDIT, &first, ""), 2),
        (relation(&second, EDIT, &missing, TEST), 2),
        (relation(&first, TEST, &second, EDIT), 2),
        (relation(&first, TEST, &first, TEST), 2),
        (relation(&missing, EDIT, &first, TEST), 2),
        (relation(&second, EDIT, &serial(44), EDIT), 2),
        // "serials are compared by their first 35 bytes"
        (relation(&second, EDIT, &other(42), TEST), 1),
        (relation(&serial(44), EDIT, &other(42), TEST), 1),
    ] {
        assert_eq!(verdict(&line), Some(number), "{line}");
    }
    let by_other = depending(45, EDIT, &[(other(42), TEST)], b"");
    let relations = lined(&[relation(&serial(45), EDIT, &first, TEST)]);
    let bytes = file(&[by_other, depending(50, RELATIONS, &[], relations.as_bytes())]);
    assert_eq!(checked(&bytes, 1), Ok(vec![1]));
    // the child's serial number under the other writing
    let mut child = chunk_header(EDIT, &[(first, TEST)], 0);
    child.extend(b"Chunk_Content_Length=000000000001\n");
    let relations = lined(&[relation(&serial(43), EDIT, &first, TEST), relation(&other(43), EDIT, &first, TEST)]);
    let bytes = file(&[closed(child, b"", &other(43)), depending(50, RELATIONS, &[], relations.as_bytes())]);
    assert_eq!(checked(&bytes, 1), Ok(vec![1, 1]));
    assert_eq!(written(&bytes), lined(&[relation(&other(43), EDIT, &first, TEST)]));
}

/// The name that the header declares, not the one that the row found has; serial numbers "verbatim"; twice, if named twice.
#[test]
fn fields_written() {
    let parents = [(serial(42), "OTHER NAME"), (other(42), TEST), (other(42), TEST)];
    let chunks = [depending(42, TEST, &[], b""), depending(43, EDIT, &parents, b"")];
    let lines = parents.map(|(parent, name)| relation(&serial(43), EDIT, &parent, name));
    assert_eq!(written(&file(&chunks)), lined(&lines));
    let relations = depending(50, RELATIONS, &[], lined(&lines).as_bytes());
    assert_eq!(checked(&file(&[&chunks[..], &[relations]].concat()), 2), Ok(vec![1; 3]));
}

/// "none of a relations row and none that names that sub-format or finds such a row"
#[test]
fn left_out() {
    let parents = [(serial(50), TEST), (other(42), TEST), (serial(99), RELATIONS), (serial(42), RELATIONS)];
    let to_relations = relation(&serial(43), EDIT, &serial(50), TEST);
    let of_relations = relation(&serial(50), RELATIONS, &serial(42), TEST);
    let contents = lined(&[to_relations, of_relations, relation(&serial(43), EDIT, &serial(99), RELATIONS)]);
    let bytes = file(&[
        depending(42, TEST, &[], b""),
        depending(43, EDIT, &parents, b""),
        depending(50, RELATIONS, &[(serial(42), TEST), (serial(43), EDIT)], contents.as_bytes()),
        depending(44, EDIT, &[(other(50), EDIT)], b""),
        depending(45, "ADS\\SYS\\Relations2", &[(serial(42), TEST)], b""),
        depending(46, "ads\\sys\\relations", &[(serial(46), " ADS\\SYS\\Relations")], b""),
    ]);
    assert_eq!(
        written(&bytes),
        lined(&[
            relation(&serial(43), EDIT, &other(42), TEST),
            relation(&serial(45), "ADS\\SYS\\Relations2", &serial(42), TEST),
            relation(&serial(46), "ads\\sys\\relations", &serial(46), " ADS\\SYS\\Relations"),
        ])
    );
    // what the writer leaves out is declared all the same
    assert_eq!(checked(&bytes, 2), Ok(vec![1; 3]));
}

/// Comments have no entry; a malformed line has one, the last one too.
#[test]
fn lists() {
    let contents = lined(&["".to_string(), declared(), "comment".to_string(), "ADS relation".to_string()]);
    assert_eq!(verdicts(&contents), Ok(vec![1, 3]));
    let unknown = relation(&serial(99), EDIT, &serial(42), TEST);
    assert_eq!(verdicts(&lined(&[unknown, HEADING.to_string(), declared(), "\t".to_string()])), Ok(vec![2, 1]));
}

/// "the first line which identifies the sub-format"; it may be the only one, and lack its LF.
#[test]
fn headings() {
    assert_eq!((verdicts(HEADING), verdicts(&format!("{HEADING}\n"))), (Ok(vec![]), Ok(vec![])));
    let behind = [&format!("\n{}", lined(&[])), "", "\n", &lined(&[]).replace('\n', "\r\n"), &format!("{HEADING}\t\n")];
    for contents in behind {
        assert_eq!(verdicts(contents), Err(20), "{contents:?}");
    }
    for (place, byte) in HEADING.bytes().enumerate() {
        let mut changed = format!("{HEADING}\n").into_bytes();
        changed[place] = byte ^ 1;
        assert_eq!(verdicts(std::str::from_utf8(&changed).unwrap()), Err(20), "{place}");
        assert_eq!(verdicts(&HEADING[..place]), Err(20), "{place}");
    }
}

/// 11, 13, 19, 20, 18, in this order.
#[test]
fn order_of_tests() {
    let contents = lined(&[declared()]);
    let wrong = depending(50, RELATIONS, &[], &contents.as_bytes()[1..]);
    let bytes = file(&[family(), vec![wrong, depending(51, RELATIONS, &[], contents.as_bytes())]].concat());
    let check = |row| relations_check(&bytes, row, &mut []);
    assert_eq!((check(0), check(2), check(3), check(4)), (Err(19), Err(19), Err(20), Err(18)));
    assert_eq!((check(5), check(usize::MAX)), (Err(13), Err(13)));
    let named = depending(50, "ADS\\SYS\\Relations2", &[], contents.as_bytes());
    assert_eq!(relations_check(&file(&[named]), 0, &mut [0; 9]), Err(19));
}

/// "a metafile is judged as by parent": rows before a fault count; sums aren't asked.
#[test]
fn judged_as_by_parent() {
    for nothing in [&b""[..], b"x", &header("LLC", b"")[..318], &header("LLC", b"")] {
        assert_eq!(written(nothing), format!("{HEADING}\n"));
        assert_eq!(checked(nothing, 0), Err(13));
    }
    let text = lined(&[declared()]);
    let [first, second] = [depending(42, TEST, &[], b""), depending(43, EDIT, &[(serial(42), TEST)], b"")];
    let relations = depending(50, RELATIONS, &[], text.as_bytes());
    let whole = file(&[first.clone(), relations.clone(), second.clone()]);
    assert_eq!((written(&whole), checked(&whole, 1)), (text.clone(), Ok(vec![1])));
    // the child's chunk is cut short, and then stands there once more
    let cut = &whole[..whole.len() - 1];
    assert_eq!((written(cut), checked(cut, 1)), (format!("{HEADING}\n"), Ok(vec![2])));
    let again = file(&[first, relations, second.clone(), second]);
    assert_eq!((written(&again), checked(&again, 1)), (text.clone(), Ok(vec![1])));
    let mut bad_sums = whole;
    for place in 1..bad_sums.len() {
        if bad_sums[..place].ends_with(b"Checksum=") {
            bad_sums[place..place + 3].copy_from_slice(b"000");
        }
    }
    assert_eq!((written(&bad_sums), checked(&bad_sums, 1)), (text, Ok(vec![1])));
}

/// A relation chunk with these dates of recording and writing, and one line of each verdict: declared, undeclared, malformed.
fn dated(random: u32, recorded: &str, written: &str, verdict: u32) -> Vec<u8> {
    let line = match verdict {
        1 => declared(),
        2 => relation(&serial(43), EDIT, &serial(43), EDIT),
        _ => "ADS relation".to_string(),
    };
    let chunk = depending(random, RELATIONS, &[], lined(&[line]).as_bytes());
    let chunk = with(&chunk, "Recording_Date=20240229", &format!("Recording_Date={recorded}"));
    with(&chunk, "Writing_Date=20240301", &format!("Writing_Date={written}"))
}

/// The row that holds and its verdicts, which are those of that row by its number.
fn latest(file: &[u8]) -> Result<(usize, Vec<u32>), u8> {
    let ((_, row), verdicts) = listed(|list| relations_check_latest(file, list), |(count, _)| count)?;
    assert_eq!(checked(file, row).as_ref(), Ok(&verdicts));
    Ok((row, verdicts))
}

/// "the latest Chunk_Writing_Date, and of equal dates the later row"; the family stands between the first and the second.
#[test]
fn the_one_that_holds() {
    let of = |chunks: [Vec<u8>; 3]| {
        let [first, second, third] = chunks;
        latest(&file(&[vec![first], family(), vec![second, third]].concat()))
    };
    let day = |random, written, verdict| dated(random, "20240229", written, verdict);
    for (written, row, verdict) in [
        (["20240301", "20240302", "20240303"], 5, 3),
        (["20240303", "20240302", "20240301"], 0, 1),
        (["20240301", "20240303", "20240302"], 4, 2),
        (["20240301", "20240301", "20240301"], 5, 3),
        (["20240301", "20240301", "20240229"], 4, 2),
        (["00010101", "99991231", "99991230"], 4, 2),
        (["20231231", "20221231", "20240101"], 5, 3),
        (["20240101", "20231231", "20230131"], 0, 1),
    ] {
        let chunks = [day(50, written[0], 1), day(51, written[1], 2), day(52, written[2], 3)];
        assert_eq!(of(chunks), Ok((row, vec![verdict])), "{written:?}");
    }
    // the recording dates in the other order, and the serial numbers
    let crossed = [dated(52, "20240301", "20240303", 1), dated(51, "20240302", "20240302", 2)];
    let [first, second] = crossed;
    assert_eq!(of([first, second, dated(50, "20240303", "20240301", 3)]), Ok((0, vec![1])));
}

/// "with no such row it gives 13"; date and row alone are asked in choosing.
#[test]
fn what_isnt_asked() {
    let [old, new] = [dated(50, "20240229", "20240301", 1), dated(51, "20240229", "20240302", 2)];
    let all = |last: &[u8]| file(&[family(), vec![old.clone(), last.to_vec()]].concat());
    assert_eq!(latest(&all(&new)), Ok((4, vec![2])));
    assert_eq!(checked(&all(&new), 3), Ok(vec![1]));
    // a bad sum: `dated` changed the dates behind it
    let mut good = new.clone();
    let at = good.len() - 4;
    let sum = good[..at].iter().map(|&byte| u32::from(byte)).sum::<u32>() % 256;
    good[at..at + 3].copy_from_slice(format!("{sum:03}").as_bytes());
    assert!(good != new && latest(&all(&good)) == Ok((4, vec![2])));
    // a wrong heading: 20, and not the other one's verdicts; another sub-format; cut short; once more
    assert_eq!(latest(&all(&with(&new, "ADS Metafile", "ads Metafile"))), Err(20));
    assert_eq!(latest(&all(&with(&new, "ADS\\SYS\\Relations", "ADS\\SYS\\relations"))), Ok((3, vec![1])));
    assert_eq!(latest(&all(&new[..new.len() - 1])), Ok((3, vec![1])));
    assert_eq!(latest(&[all(&old), new.clone()].concat()), Ok((3, vec![1])));
    for nothing in [&b""[..], b"x", &header("LLC", b"")[..318], &header("LLC", b""), &file(&family())] {
        assert_eq!(latest(nothing), Err(13));
    }
    // 11, 13, 20, 18, in this order
    assert_eq!(relations_check_latest(&all(&with(&new, "ADS Metafile", "ads Metafile")), &mut []), Err(20));
    assert_eq!(relations_check_latest(&all(&new), &mut []), Err(18));
}

/// 11 of check is the file's alone: the list is no byte buffer.
#[test]
fn over_the_limit() {
    let mut long = vec![0; (1 << 30) + 1];
    assert_eq!(relations_write(&long, &mut [0; 200]), Err(11));
    assert_eq!(relations_write(&long[1..], &mut [0; 130]), Err(18));
    assert_eq!(relations_write(b"", &mut long), Err(11));
    assert_eq!(relations_write(b"", &mut long[1..]), Ok(131));
    assert_eq!(relations_check(&long, 0, &mut []), Err(11));
    assert_eq!(relations_check(&long[1..], 0, &mut []), Err(13));
    assert_eq!(relations_check_latest(&long, &mut []), Err(11));
    assert_eq!(relations_check_latest(&long[1..], &mut []), Err(13));
    drop(long);
    let bytes = file(&[depending(50, RELATIONS, &[], lined(&["ADS relation".to_string()]).as_bytes())]);
    let mut list = vec![0; (1 << 28) + 1];
    assert_eq!((relations_check(&bytes, 0, &mut list), list[0], list[1]), (Ok(1), 3, 0));
}

/// Appended to the file for which it was written, the text is declared line by line.
#[test]
fn appended() {
    let bytes = file(&family());
    let text = written(&bytes);
    let mut buffer = lent(&bytes, 4000);
    let given = description().sub_format(RELATIONS.as_bytes()).serial_number(serial(50));
    let ends = append(&mut buffer, bytes.len(), &given, &[], b"", text.as_bytes(), false).unwrap();
    assert_eq!(checked(&buffer[..ends.third], 3), Ok(vec![1; 4]));
    assert_eq!(written(&buffer[..ends.third]), text);
    // the name that a header declares, changed
    let renamed = with(&buffer[..ends.third], "Dependency_SubFormatID=GONE", "Dependency_SubFormatID=gone");
    assert_eq!(checked(&renamed, 3), Ok(vec![1, 2, 1, 1]));
}
