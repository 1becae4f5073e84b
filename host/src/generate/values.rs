//! Values of each datatype: good ones, and ones that just miss. Values of Length, NumInGroup and
//! data are made where their pair or group is.

use super::Random;

/// One of the texts between the bars.
fn one_of(random: &mut Random, texts: &str) -> Vec<u8> {
    let all: Vec<&str> = texts.split('|').collect();
    random.pick(&all).as_bytes().to_vec()
}

/// A value of the right form.
pub fn good(random: &mut Random, datatype: u16) -> Vec<u8> {
    match datatype {
        1 => match random.below(8) {
            0 => vec![b'x'; random.range(1, 60)],
            1 => random.bytes(5).into_iter().filter(|&byte| byte != 1).chain([b'=']).collect(),
            _ => one_of(random, "A|BC|10=|11=Z|=| |0|\0|\u{ff}"),
        },
        2 => vec![*random.pick(b"A0=- \x00\x7F\xFF")],
        3 => one_of(random, "Y|N"),
        4 => one_of(random, "0|-0|7|-12|007|-000|123456789012345678901234567890"),
        6 => one_of(random, "1|9|0001|10|65536|18446744073709551616|100000000000000000000000000"),
        8 => one_of(random, "1|9|10|31|01|29|00000000000000000000000000031"),
        9 => one_of(random, "0|1.5|-1.5|.5|5.|-.5|-5.|00.00|-0|12345678901234567890.1"),
        11 => [date(random, None), b"-".to_vec(), time(random, None)].concat(),
        12 => time(random, None),
        13 => date(random, None),
        14 => month_year(random, None),
        15 => zoned(random, None),
        16 => one_of(random, "A|A B|AB C D|=|1 2 3 4"),
        _ => one_of(random, "1|2"),
    }
}

/// A value that misses its form by little, or sometimes not at all.
pub fn near(random: &mut Random, datatype: u16) -> Vec<u8> {
    let of_date = Some(random.below(2));
    let of_time = Some(random.below(5));
    match datatype {
        _ if random.chance(25) => edited(random, datatype),
        2 => one_of(random, "AB|A |  |ABC"),
        3 => one_of(random, "y|n|YN|1|Y |T|NN"),
        4 => one_of(random, "-|+1|--1|1-|1.0| 1|1 |a|0x1|1-1|-+1|1e3|:|/"),
        5..=7 => one_of(random, "-1|+1|0|000|0000000000000000000000|1.0|a|1a| 1|1 |-|-0|:|/"),
        8 => one_of(random, "0|32|00|-1|99|031|032|+1|a|1 |65537|4294967297|18446744073709551617"),
        9 => one_of(random, ".|-|-.|1..2|1.2.3|+1|1e5|--1| 1|1-|.-1|1,0|..|1.-"),
        11 if random.chance(25) => [date(random, None), b"T".to_vec(), time(random, None)].concat(),
        11 if random.chance(50) => {
            [date(random, of_date), b"-".to_vec(), time(random, None)].concat()
        }
        11 => [date(random, None), b"-".to_vec(), time(random, of_time)].concat(),
        12 => time(random, of_time),
        13 if random.chance(40) => one_of(random, "2020013|202001301|2020-1-1|2020|20200101 "),
        13 => date(random, of_date),
        14 if random.chance(60) => one_of(
            random,
            "202001w0|202001w6|202001w|202001011|2020011|202001w11|20201|202001W1|202001ww|w1",
        ),
        14 => month_year(random, of_date),
        15 if random.chance(50) => {
            let odd = "12:30z|12:30+1|12:30+01:|12:30:|1:30|12:30ZZ|12:30+01:5|12:30.000|12:30-|\
                       12:30+01:000|12:30Z+01|12:30:5|12:30:5Z|1230|12:30+0130|12:30:000|12:30 Z";
            one_of(random, odd)
        }
        15 => zoned(random, of_time),
        16 => one_of(random, " | A|A |A  B|  |A B "),
        _ => vec![],
    }
}

/// A good value with one byte changed, put in or taken out.
fn edited(random: &mut Random, datatype: u16) -> Vec<u8> {
    let mut value = good(random, datatype);
    let at = random.below(value.len());
    let byte = *random.pick(b"0123456789-.:+wZYN =a\x00\x2F\x3A");
    match random.below(3) {
        0 => value[at] = byte,
        1 => value.insert(at, byte),
        _ => drop(value.remove(at)),
    }
    value
}

/// A number of two digits, from low to high; one off where it slips.
fn two(random: &mut Random, low: usize, high: usize, slips: bool) -> String {
    let number = match random.below(3) {
        _ if slips && low > 0 && random.chance(50) => low - 1,
        _ if slips => high + 1,
        0 => low,
        1 => high,
        _ => random.range(low, high),
    };
    format!("{number:02}")
}

// In what follows `slip` names the part that is one off: of a date the month (0) or the day (1),
// of a time hour (0), minute (1), second (2) or the fraction (3), of a zone its hour (3) or
// minute (4); 4 puts an odd byte into a time.

fn month(random: &mut Random, slip: Option<usize>) -> String {
    let year = *random.pick(&["0000", "9999", "2020", "1999"]);
    format!("{year}{}", two(random, 1, 12, slip == Some(0)))
}

fn date(random: &mut Random, slip: Option<usize>) -> Vec<u8> {
    format!("{}{}", month(random, slip), two(random, 1, 31, slip == Some(1))).into_bytes()
}

fn time(random: &mut Random, slip: Option<usize>) -> Vec<u8> {
    let hour = two(random, 0, 23, slip == Some(0));
    let minute = two(random, 0, 59, slip == Some(1));
    let second = two(random, 0, 60, slip == Some(2));
    let digits = match slip {
        Some(3) => *random.pick(&[1, 2, 4, 5, 7, 8, 10, 11, 13, 15]),
        _ => *random.pick(&[0, 0, 3, 6, 9, 12]),
    };
    let fraction = if digits == 0 { String::new() } else { format!(".{}", "7".repeat(digits)) };
    let mut text = format!("{hour}:{minute}:{second}{fraction}").into_bytes();
    if slip == Some(4) {
        let at = random.range(2, text.len() - 1);
        text[at] = *random.pick(b".:-a0");
    }
    text
}

fn month_year(random: &mut Random, slip: Option<usize>) -> Vec<u8> {
    let rest = match random.below(3) {
        _ if slip == Some(1) => two(random, 1, 31, true),
        0 => String::new(),
        1 => format!("w{}", random.range(1, 5)),
        _ => two(random, 1, 31, false),
    };
    format!("{}{rest}", month(random, slip)).into_bytes()
}

fn zoned(random: &mut Random, slip: Option<usize>) -> Vec<u8> {
    let hour = two(random, 0, 23, slip == Some(0));
    let mut text = format!("{hour}:{}", two(random, 0, 59, slip == Some(1)));
    if slip == Some(2) || random.chance(50) {
        text += &format!(":{}", two(random, 0, 59, slip == Some(2)));
    }
    match random.below(5) {
        0 if slip < Some(3) => {}
        1 if slip < Some(3) => text += "Z",
        _ => {
            text += *random.pick(&["+", "-"]);
            text += &two(random, 1, 12, slip == Some(3));
            if slip == Some(4) || random.chance(50) {
                text += &format!(":{}", two(random, 0, 59, slip == Some(4)));
            }
        }
    }
    text.into_bytes()
}

/// Data full of what a careless reader looks for.
pub fn data(random: &mut Random, parts: usize) -> Vec<u8> {
    let chunks: [&[u8]; 10] = [
        b"\x01", b"=", b"10=", b"\x0110=123\x01", b"a", b"\x00", b"\xFF", b"\x0111=Z", b"7",
        b"\x01\x01",
    ];
    (0..parts).flat_map(|_| random.pick(&chunks).to_vec()).collect()
}

/// A number as text, sometimes with zeros in front.
pub fn digits(random: &mut Random, number: usize) -> Vec<u8> {
    let zeros = match random.below(40) {
        0..=5 => random.range(1, 4),
        6 => random.range(20, 400),
        _ => 0,
    };
    format!("{}{number}", "0".repeat(zeros)).into_bytes()
}
