//! The arguments of ./rate, as far as they say what is asked.

pub const MOST_CLOCK: u64 = 1_000_000_000;
pub const MOST_OPTION: u64 = 10_000_000;
pub const MOST_OPTIONS: usize = 32;
pub const MOST_BUFFER: u64 = 1 << 20;
pub const MOST_CYCLES: u64 = 500_000_000;

/// Unless they are given.
const BUFFER: u64 = 1;
const CYCLES: u64 = 100_000_000;

#[derive(Clone, Debug, PartialEq, Eq)]
pub struct Arguments {
    pub image: String,
    pub from: u32,
    pub to: u32,
    pub clock: u64,
    pub options: Vec<u64>,
    pub buffer: u64,
    pub cycles: u64,
    pub end: Option<u32>,
    pub gaps: Option<String>,
}

/// What follows each name, the first time that it is there.
#[derive(Default)]
struct Given<'a> {
    image: Option<&'a str>,
    link: Option<&'a str>,
    clock: Option<&'a str>,
    options: Option<&'a str>,
    buffer: Option<&'a str>,
    cycles: Option<&'a str>,
    end: Option<&'a str>,
    gaps: Option<&'a str>,
}

/// What is asked, or the argument to blame.
pub fn read(words: &[String]) -> Result<Arguments, String> {
    let given = given(words)?;
    let missing = |name: &str| format!("{name} is missing");
    let (from, to) = link(given.link.ok_or(missing("--link"))?).ok_or("--link")?;
    let clock = given.clock.ok_or(missing("--clock"))?;
    let options = given.options.ok_or(missing("--options"))?;
    Ok(Arguments {
        image: given.image.ok_or(missing("IMAGE"))?.to_string(),
        from,
        to,
        clock: number(clock, 1..=MOST_CLOCK).ok_or("--clock")?,
        options: rising(options).ok_or("--options")?,
        buffer: given
            .buffer
            .map_or(Some(BUFFER), |text| number(text, 1..=MOST_BUFFER))
            .ok_or("--buffer")?,
        cycles: given
            .cycles
            .map_or(Some(CYCLES), |text| number(text, 1..=MOST_CYCLES))
            .ok_or("--cycles")?,
        end: given
            .end
            .map(|text| hexadecimal(text).ok_or("--end"))
            .transpose()?,
        gaps: given.gaps.map(str::to_string),
    })
}

fn given(words: &[String]) -> Result<Given<'_>, String> {
    let mut given = Given::default();
    let mut words = words.iter().map(String::as_str);
    while let Some(word) = words.next() {
        let place = match word {
            "--link" => &mut given.link,
            "--clock" => &mut given.clock,
            "--options" => &mut given.options,
            "--buffer" => &mut given.buffer,
            "--cycles" => &mut given.cycles,
            "--end" => &mut given.end,
            "--gaps" => &mut given.gaps,
            "" => return Err("an empty name".to_string()),
            _ if word.starts_with('-') && word != "-" => return Err(format!("no option {word}")),
            _ => {
                if given.image.replace(word).is_some() {
                    return Err("two images".to_string());
                }
                continue;
            }
        };
        let value = words.next().ok_or(format!("{word} lacks its value"))?;
        if place.replace(value).is_some() {
            return Err(format!("{word} twice"));
        }
    }
    Ok(given)
}

fn link(text: &str) -> Option<(u32, u32)> {
    let (from, to) = text.split_once('-')?;
    Some((hexadecimal(from)?, hexadecimal(to)?))
}

/// Digits of either case, with 0x before them or not.
fn hexadecimal(text: &str) -> Option<u32> {
    let digits = text.strip_prefix("0x").unwrap_or(text);
    let all = digits.bytes().all(|byte| byte.is_ascii_hexdigit());
    all.then(|| u32::from_str_radix(digits, 16).ok())?
}

/// Digits alone.
fn number(text: &str, limits: std::ops::RangeInclusive<u64>) -> Option<u64> {
    let all = text.bytes().all(|byte| byte.is_ascii_digit());
    let number = all.then(|| text.parse().ok())??;
    limits.contains(&number).then_some(number)
}

fn rising(text: &str) -> Option<Vec<u64>> {
    let numbers = text.split(',').map(|text| number(text, 1..=MOST_OPTION));
    let options: Vec<u64> = numbers.collect::<Option<_>>()?;
    let rises = options.windows(2).all(|pair| pair[0] < pair[1]);
    (rises && options.len() <= MOST_OPTIONS).then_some(options)
}

#[cfg(test)]
mod tests {
    use super::*;

    fn read_line(line: &str) -> Result<Arguments, String> {
        let words: Vec<String> = line.split(' ').map(str::to_string).collect();
        read(&words)
    }

    const SHORT: &str = "image --link 3F0-3F4 --clock 8000000 --options 250,500";

    #[test]
    fn what_is_not_given() {
        let asked = read_line(SHORT).unwrap();
        let wanted = Arguments {
            image: "image".to_string(),
            from: 0x3F0,
            to: 0x3F4,
            clock: 8_000_000,
            options: vec![250, 500],
            buffer: 1,
            cycles: 100_000_000,
            end: None,
            gaps: None,
        };
        assert_eq!(asked, wanted);
        let whole = "--end 0x2c --cycles 5 --gaps g --buffer 1048576 - --link 0x3f0-0x3F4 \
                     --clock 1000000000 --options 1,10000000";
        let asked = read_line(&whole.replace("  ", "")).unwrap();
        assert_eq!(
            (asked.end, asked.cycles, asked.buffer),
            (Some(0x2C), 5, 1 << 20)
        );
        assert_eq!(
            (asked.image.as_str(), asked.from, asked.to),
            ("-", 0x3F0, 0x3F4)
        );
        assert_eq!(asked.options, [1, 10_000_000]);
    }

    #[test]
    fn what_is_refused() {
        for more in [
            " --buffer 0",
            " --buffer 1048577",
            " --buffer -1",
            " --buffer +1",
            " --buffer 1_0",
            " --cycles 0",
            " --cycles 500000001",
            " --cycles 1e6",
            " --end",
            " --end x",
            " --end 0x",
            " --end 100000000",
            " --end 0x0x1",
            " --clock 5",
            " image",
            " --what 1",
            " --gaps",
        ] {
            assert!(read_line(&format!("{SHORT}{more}")).is_err(), "{more}");
        }
        for (old, new) in [
            ("250,500", "500,250"),
            ("250,500", "250,250"),
            ("250,500", "0,1"),
            ("250,500", ","),
            ("250,500", "250,"),
            ("250,500", "10000001"),
            ("250,500", "2.5"),
            ("8000000", "0"),
            ("8000000", "1000000001"),
            ("8000000", "99999999999999999999"),
            ("3F0-3F4", "3F0"),
            ("3F0-3F4", "3F0-"),
            ("3F0-3F4", "-3F4"),
            ("3F0-3F4", "3F0-3F4-3F8"),
            ("image ", ""),
            ("3F0-3F4", "+3F0-3F4"),
            ("--clock 8000000 ", ""),
            ("--link 3F0-3F4 ", ""),
            (" --options 250,500", ""),
        ] {
            assert!(
                read_line(&SHORT.replacen(old, new, 1)).is_err(),
                "{old} {new}"
            );
        }
        let many = |count: u64| {
            (1..=count)
                .map(|it| it.to_string())
                .collect::<Vec<_>>()
                .join(",")
        };
        assert!(read_line(&SHORT.replace("250,500", &many(32))).is_ok());
        assert!(read_line(&SHORT.replace("250,500", &many(33))).is_err());
    }
}
