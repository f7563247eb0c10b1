//! `rig draw --svg`: the document of P8, what is escaped, and an independent count of what documents are made of.

use super::draw::P8;
use super::rig;
use rehearsal_model::rig::answer;
use rehearsal_model::rig::inputs::Kind;

const P8_SVG: &str = r##"<svg xmlns="http://www.w3.org/2000/svg" width="720" height="156" viewBox="0 0 720 156" font-family="monospace" font-size="12">
<title>p8 two boards</title>
<rect width="100%" height="100%" fill="white"/>
<text x="8" y="20">p8 two boards</text>
<rect x="392" y="46" width="24" height="80" fill="#f9e79f"/>
<text x="8" y="42">byte 0</text>
<text x="92" y="42">S</text>
<text x="104" y="42">90</text>
<text x="104" y="60">1</text>
<text x="128" y="60">0</text>
<text x="152" y="60">0</text>
<text x="176" y="60">1</text>
<text x="200" y="60">0</text>
<text x="224" y="60">0</text>
<text x="248" y="60">0</text>
<text x="272" y="60">0</text>
<text x="296" y="60">A</text>
<text x="320" y="42">0F</text>
<text x="320" y="60">0</text>
<text x="344" y="60">0</text>
<text x="368" y="60">0</text>
<text x="392" y="60">0</text>
<text x="416" y="60">1</text>
<text x="440" y="60">1</text>
<text x="464" y="60">1</text>
<text x="488" y="60">1</text>
<text x="512" y="60">A</text>
<text x="548" y="42">P</text>
<text x="8" y="84">SCL</text>
<path d="M80 70 H92 H104 V88 H116 V70 H128 V88 H140 V70 H152 V88 H164 V70 H176 V88 H188 V70 H200 V88 H212 V70 H224 V88 H236 V70 H248 V88 H260 V70 H272 V88 H284 V70 H296 V88 H308 V70 H320 V88 H332 V70 H344 V88 H356 V70 H368 V88 H380 V70 H392 V88 H404 V70 H416 V88 H428 V70 H440 V88 H452 V70 H464 V88 H476 V70 H488 V88 H500 V70 H512 V88 H524 V70 H536 V88 H548 V70 H560 H572" fill="none" stroke="#1b4f72" stroke-width="2"/>
<text x="8" y="118">SDA</text>
<path d="M80 104 H92 V122 H104 V104 H116 H128 V122 H140 H152 H164 H176 V104 H188 H200 V122 H212 H224 H236 H248 H260 H272 H284 H296 H308 H320 H332 H344 H356 H368 H380 H392 H404 H416 V104 H428 H440 H452 H464 H476 H488 H500 H512 V122 H524 H536 H548 H560 V104 H572" fill="none" stroke="#1b4f72" stroke-width="2"/>
<text x="392" y="140">0 first lost</text>
</svg>
"##;

#[test]
fn the_document_of_p8() {
    assert_eq!(rig("draw - p8 --svg", P8), format!("{P8_SVG}ok 1 load: 1 sent\n"));
}

#[test]
fn names_and_titles_are_escaped() {
    let loads = "boards a<b>&amp; q\nload x&y<z> 1 < 2 \"m\u{e9}mo\" ]]>\n\
        board a<b>&amp; 92\nboard q 90\nack all\nend 1\n";
    let svg = rig("draw - x&y<z> --svg", loads);
    let heading = "x&amp;y&lt;z&gt; 1 &lt; 2 \"m??mo\" ]]&gt;";
    assert!(svg.contains(&format!("\n<title>{heading}</title>\n")), "{svg}");
    assert!(svg.contains(&format!("\n<text x=\"8\" y=\"20\">{heading}</text>\n")), "{svg}");
    assert!(svg.contains(">0 a&lt;b&gt;&amp;amp; lost</text>\n"), "{svg}");
    assert!(rig("draw - x&y<z>", loads).contains("^ 0 a<b>&amp;\n"));
}

/// What a document is made of, by the levels and the block of its load.
struct Count {
    levels: Vec<u8>,
    /// How many bytes stand in each part.
    parts: Vec<usize>,
    /// The byte and the bit of each loser.
    places: Vec<(usize, usize)>,
}

fn lossy(arguments: &[&str], input: &[u8]) -> String {
    let arguments: Vec<Vec<u8>> = arguments.iter().map(|&word| word.into()).collect();
    String::from_utf8_lossy(&answer(&arguments, &mut &input[..]).output).into_owned()
}

impl Count {
    /// None where the file has not just one load of this name, carried and nothing wrong.
    fn of(input: &[u8], name: &str) -> Option<Count> {
        let trace = lossy(&["clash", "-", "--trace", name], input);
        let (samples, last) = trace.trim_end().rsplit_once('\n')?;
        (last.starts_with("ok 1 load:") || last.starts_with("look 1 load:")).then_some(())?;
        let levels =
            samples.lines().map(|sample| sample.split_once(' ').unwrap().1.parse().unwrap()).collect();
        let block = lossy(&["draw", "-", name], input);
        let carried = block.lines().find_map(|line| line.strip_prefix("  carried "))?;
        let parts = carried.split(" / ").map(|part| part.split(", ").count()).collect();
        let place = |line: &str| {
            let (_, words) =
                line.split_once(": sends 1, the bus is 0;").map(|(place, _)| place)?.rsplit_once(" byte ")?;
            let (byte, bit) = words.split_once(" bit ")?;
            Some((byte.parse().unwrap(), bit.parse().unwrap()))
        };
        Some(Count { levels, parts, places: block.lines().filter_map(place).collect() })
    }

    fn bytes(&self) -> usize {
        self.parts.iter().sum()
    }

    /// How many columns stand before a byte in the whole waveform.
    fn before(&self, byte: usize) -> usize {
        let mut ends = self.parts.iter().scan(0, |end, part| {
            *end += part;
            Some(*end)
        });
        let restarts = ends.by_ref().take_while(|end| *end <= byte).count();
        2 + 18 * byte + 3 * restarts
    }

    /// The columns of a row.
    fn row(&self, row: usize) -> std::ops::Range<usize> {
        let begin = |row: usize| match 3 * row {
            0 => 0,
            byte if byte >= self.bytes() => self.levels.len(),
            byte => self.before(byte),
        };
        begin(row)..begin(row + 1)
    }

    fn rows(&self) -> usize {
        self.bytes().div_ceil(3)
    }

    /// The upper border of a row.
    fn top(&self, row: usize) -> usize {
        30 + 112 * row + 14 * self.places.iter().filter(|(byte, _)| byte / 3 < row).count()
    }
}

/// The numbers that follow each of these texts.
fn numbers(text: &str, before: &str) -> Vec<usize> {
    let number =
        |rest: &str| rest.split(|letter: char| !letter.is_ascii_digit()).next().unwrap().parse().unwrap();
    text.split(before).skip(1).map(number).collect()
}

/// The line of a path, column by column: true where it is at its upper height.
fn highs(path: &str, high: usize) -> Vec<bool> {
    let (data, _) = path.strip_prefix("<path d=\"M80 ").unwrap().split_once('"').unwrap();
    let mut words = data.split(' ');
    let mut y: usize = words.next().unwrap().parse().unwrap();
    let mut highs = Vec::new();
    for word in words {
        let (kind, number) = (&word[..1], word[1..].parse().unwrap());
        match kind {
            "V" => {
                assert!(number != y, "{path}");
                y = number;
            }
            _ => {
                highs.push(y == high);
                assert!(kind == "H" && number == 80 + 12 * highs.len(), "{path}");
            }
        }
        assert!(y == high || y == high + 18, "{path}");
    }
    highs
}

/// The size, and how many elements of each kind there are.
fn check_size(svg: &str, count: &Count) {
    let (rows, lost) = (count.rows(), count.places.len());
    let (width, height) = (180 + 12 * count.levels.len().clamp(45, 65), 30 + 112 * rows + 14 * lost);
    let size = format!("width=\"{width}\" height=\"{height}\" viewBox=\"0 0 {width} {height}\"");
    assert!(svg.contains(&size), "{svg}");
    let texts = 1 + 3 * rows + 1 + 10 * count.bytes() + count.parts.len() + lost;
    let elements =
        [("<text ", texts), ("<rect ", 1 + lost), ("<path ", 2 * rows), ("<title>", 1), ("<svg ", 1)];
    for (element, number) in elements {
        assert_eq!(svg.matches(element).count(), number, "{element} in {svg}");
    }
    assert_eq!(svg.matches(">Sr</text>").count(), count.parts.len() - 1);
    assert_eq!(svg.lines().count(), elements.iter().map(|(_, number)| number).sum::<usize>() + 2);
}

/// The paths are the levels, row by row.
fn check_paths(svg: &str, count: &Count) {
    let mut paths = svg.lines().filter(|line| line.starts_with("<path "));
    for row in 0..count.rows() {
        let levels = &count.levels[count.row(row)];
        for (bit, high) in [(1, 40), (2, 74)] {
            let expected: Vec<bool> = levels.iter().map(|level| level & bit != 0).collect();
            assert_eq!(highs(paths.next().unwrap(), count.top(row) + high), expected, "{svg}");
        }
    }
}

/// The bits where boards lost are marked and named, row by row.
fn check_losers(svg: &str, count: &Count) {
    for row in 0..count.rows() {
        let (top, begin) = (count.top(row), count.row(row).start);
        let lost = count.places.iter().filter(|(byte, _)| byte / 3 == row);
        let lost: Vec<usize> =
            lost.map(|(byte, bit)| 80 + 12 * (count.before(*byte) + 2 * bit - begin)).collect();
        let place = format!(" y=\"{}\" width=\"24\"", top + 16);
        let marks: String = svg.lines().filter(|line| line.contains(&place)).collect();
        assert_eq!(numbers(&marks, "<rect x=\""), lost, "{svg}");
        for (index, x) in lost.iter().enumerate() {
            let named = format!("\n<text x=\"{x}\" y=\"{}\">", top + 110 + 14 * index);
            assert!(svg.contains(&named), "{svg}");
        }
    }
}

#[test]
fn documents_agree_with_a_count_of_their_own() {
    let kind = Kind::named("clash").unwrap();
    let mut checked = 0;
    for seed in 0..1500 {
        let input = kind.draw(seed, b"-", b"-").input;
        let Ok(text) = std::str::from_utf8(&input) else { continue };
        let mut names: Vec<&str> =
            text.lines().filter_map(|line| line.strip_prefix("load ")?.split_whitespace().next()).collect();
        names.truncate(3);
        for name in names {
            let Some(count) = Count::of(&input, name) else { continue };
            let svg = lossy(&["draw", "-", name, "--svg"], &input);
            check_size(&svg, &count);
            check_paths(&svg, &count);
            check_losers(&svg, &count);
            checked += 1;
        }
    }
    assert!(checked > 500, "{checked}");
}
