// A plain painter of the same meaning, to measure the proved one against: safe Rust, one thread, each triangle over its box of dots, edges stepped by sums, and one exact
// division for each quantity of a covered dot. A file is judged only as far as painting needs it: numbers of looks and corners are believed to be in bounds.
use std::env;
use std::fs;
use std::ops::Range;
use std::process::ExitCode;
use std::time::Duration;
use std::time::Instant;

const HELP: &str = "plain FILE [--frames N] [--out PICTURES] [--count]: paints the pictures of a file N times (5 if not said) and prints the best time of one, in milliseconds.
With --out the bytes of the pictures shown are written, one after another. With --count only what the file has is printed: its triangles, width and height, and covered dots for each dot of the picture.";

struct Reader<'a> {
    rest: &'a [u8],
}

impl<'a> Reader<'a> {
    fn slice(&mut self, length: usize) -> Result<&'a [u8], String> {
        let (part, rest) = self
            .rest
            .split_at_checked(length)
            .ok_or("the file ends too early")?;
        self.rest = rest;
        Ok(part)
    }

    fn array<const N: usize>(&mut self) -> Result<&'a [u8; N], String> {
        let (part, rest) = self
            .rest
            .split_first_chunk()
            .ok_or("the file ends too early")?;
        self.rest = rest;
        Ok(part)
    }

    fn u8(&mut self) -> Result<u8, String> {
        self.array().map(|&[byte]| byte)
    }

    fn u16(&mut self) -> Result<u16, String> {
        self.array().map(|&bytes| u16::from_le_bytes(bytes))
    }

    fn i32(&mut self) -> Result<i32, String> {
        self.array().map(|&bytes| i32::from_le_bytes(bytes))
    }
}

#[derive(Clone, Copy)]
struct Size {
    width: usize,
    height: usize,
}

#[derive(Clone, Copy)]
struct Frame {
    left: usize,
    top: usize,
    right: usize,
    bottom: usize,
}

impl Frame {
    fn is_within(self, size: Size) -> bool {
        self.left <= self.right
            && self.top <= self.bottom
            && self.right <= size.width
            && self.bottom <= size.height
    }
}

#[derive(Clone, Copy)]
enum Test {
    Always,
    Less,
    LessOrEqual,
    Equal,
    Never,
}

#[derive(Clone, Copy)]
enum Mix {
    Replace,
    Blend,
    Add,
}

#[derive(Clone, Copy)]
struct Pen {
    test: Test,
    keeps: bool,
    mix: Mix,
    texture: usize,
    frame: Frame,
}

impl Pen {
    fn at_start(size: Size) -> Pen {
        let frame = Frame {
            left: 0,
            top: 0,
            right: size.width,
            bottom: size.height,
        };
        Pen {
            test: Test::Always,
            keeps: false,
            mix: Mix::Replace,
            texture: 0,
            frame,
        }
    }

    fn read(reader: &mut Reader) -> Result<Pen, String> {
        let test = match reader.u8()? {
            0 => Test::Always,
            1 => Test::Less,
            2 => Test::LessOrEqual,
            3 => Test::Equal,
            4 => Test::Never,
            other => return Err(format!("there is no test {other}")),
        };
        let keeps = reader.u8()? != 0;
        let mix = match reader.u8()? {
            0 => Mix::Replace,
            1 => Mix::Blend,
            2 => Mix::Add,
            other => return Err(format!("there is no mix {other}")),
        };
        let texture = usize::from(reader.u8()?);
        let mut edge = || reader.u16().map(usize::from);
        let frame = Frame {
            left: edge()?,
            top: edge()?,
            right: edge()?,
            bottom: edge()?,
        };
        Ok(Pen {
            test,
            keeps,
            mix,
            texture,
            frame,
        })
    }
}

struct Texture<'a> {
    across: u8,
    down: u8,
    dots: &'a [[u8; 4]],
}

impl<'a> Texture<'a> {
    fn read(reader: &mut Reader<'a>) -> Result<Texture<'a>, String> {
        let &[across, down] = reader.array()?;
        if across > 8 || down > 8 {
            return Err("a texture is too large".into());
        }
        let (dots, _) = reader.slice(4 << (across + down))?.as_chunks();
        Ok(Texture { across, down, dots })
    }

    fn at(&self, u: u16, v: u16) -> [u8; 4] {
        let column = usize::from(u >> 8) & ((1 << self.across) - 1);
        let row = usize::from(v >> 8) & ((1 << self.down) - 1);
        self.dots[row << self.across | column]
    }
}

struct Corner {
    x: i64,
    y: i64,
    z: i64,
    u: u16,
    v: u16,
    colour: [u8; 4],
}

impl Corner {
    fn of(bytes: &[u8; 20]) -> Corner {
        let i32_at = |at: usize| {
            i32::from_le_bytes([bytes[at], bytes[at + 1], bytes[at + 2], bytes[at + 3]])
        };
        let u16_at = |at: usize| u16::from_le_bytes([bytes[at], bytes[at + 1]]);
        Corner {
            x: i64::from(i32_at(0)),
            y: i64::from(i32_at(4)),
            z: i64::from(i32_at(8)),
            u: u16_at(12),
            v: u16_at(14),
            colour: [bytes[16], bytes[17], bytes[18], bytes[19]],
        }
    }
}

// A corner on the picture.
#[derive(Clone, Copy)]
struct Point {
    x: i64,
    y: i64,
    depth: u16,
    u: u16,
    v: u16,
    colour: [u8; 4],
}

// All zeros is no look: it puts every corner too near.
#[derive(Clone, Copy, Default)]
struct Look {
    rows: [[i64; 4]; 3],
    scale: i64,
    across: i64,
    down: i64,
}

impl Look {
    fn read(reader: &mut Reader) -> Result<Look, String> {
        let mut number = || reader.i32().map(i64::from);
        let mut look = Look::default();
        for m in look.rows.iter_mut().flatten() {
            *m = number()?;
        }
        look.scale = number()?;
        look.across = number()?;
        look.down = number()?;
        Ok(look)
    }

    // Where a corner is seen, if it is.
    fn point(&self, corner: &Corner) -> Option<Point> {
        let row =
            |m: &[i64; 4]| (m[0] * corner.x + m[1] * corner.y + m[2] * corner.z + 256 * m[3]) >> 16;
        let (x, y, w) = (row(&self.rows[0]), row(&self.rows[1]), row(&self.rows[2]));
        if !(256..=16_777_215).contains(&w) {
            return None;
        }
        let places = -524_288..=524_287;
        let x = self.across + (x * self.scale).div_euclid(w);
        let y = self.down + (y * self.scale).div_euclid(w);
        if !places.contains(&x) || !places.contains(&y) {
            return None;
        }
        let depth = (65_535 - 16_776_960 / w) as u16;
        Some(Point {
            x,
            y,
            depth,
            u: corner.u,
            v: corner.v,
            colour: corner.colour,
        })
    }
}

// The side of a place for an edge, as it is stepped over the dots of a box.
#[derive(Clone, Copy)]
struct Edge {
    // The side, and one less where the edge does not own its places: a place is inside where this is not below 0.
    at: i64,
    less: i64,
    across: i64,
    down: i64,
}

impl Edge {
    fn new(p: &Point, q: &Point, x: i64, y: i64) -> Edge {
        let owns = q.y < p.y || q.y == p.y && q.x > p.x;
        let less = i64::from(!owns);
        Edge {
            at: side(p, q, x, y) - less,
            less,
            across: -256 * (q.y - p.y),
            down: 256 * (q.x - p.x),
        }
    }
}

fn side(p: &Point, q: &Point, x: i64, y: i64) -> i64 {
    (q.x - p.x) * (y - p.y) - (q.y - p.y) * (x - p.x)
}

// A number to divide by many times.
#[derive(Clone, Copy)]
struct Divisor {
    number: u64,
    reciprocal: u64,
}

impl Divisor {
    fn new(number: u64) -> Divisor {
        Divisor {
            number,
            reciprocal: u64::MAX / number,
        }
    }

    // The product with the reciprocal is the quotient, or one less.
    fn quotient(self, n: u64) -> u64 {
        let q = ((u128::from(n) * u128::from(self.reciprocal)) >> 64) as u64;
        q + u64::from(n - q * self.number >= self.number)
    }
}

// How much of a, b and c a dot has, of all the area: its sides of b to c, c to a and a to b.
#[derive(Clone, Copy)]
struct Weights {
    a: i64,
    b: i64,
    c: i64,
}

// Covered dots side by side: their row, the first and the one behind the last, the first one's weights, and what these change by from dot to dot.
struct Span {
    row: usize,
    dots: Range<usize>,
    first: Weights,
    step: Weights,
}

// Three points that go round with the clock.
struct Triangle {
    a: Point,
    b: Point,
    c: Point,
    area: Divisor,
}

impl Triangle {
    fn new(a: Point, b: Point, c: Point) -> Option<Triangle> {
        let area = side(&a, &b, c.x, c.y);
        if area == 0 {
            return None;
        }
        let (b, c) = if area < 0 { (c, b) } else { (b, c) };
        Some(Triangle {
            a,
            b,
            c,
            area: Divisor::new(area.unsigned_abs()),
        })
    }

    // Calls `paint` with the dots that the triangle covers in the frame, row by row.
    #[inline]
    fn spans(&self, frame: Frame, mut paint: impl FnMut(Span)) {
        let Triangle { a, b, c, .. } = self;
        // The dots whose middles lie between the outermost points.
        let first = |least: i64, from: usize| ((least + 127) >> 8).max(from as i64);
        let end = |most: i64, to: usize| ((most + 128) >> 8).min(to as i64);
        let (left, right) = (
            first(a.x.min(b.x).min(c.x), frame.left),
            end(a.x.max(b.x).max(c.x), frame.right),
        );
        let (top, bottom) = (
            first(a.y.min(b.y).min(c.y), frame.top),
            end(a.y.max(b.y).max(c.y), frame.bottom),
        );
        if left >= right || top >= bottom {
            return;
        }
        let (x, y) = (256 * left + 128, 256 * top + 128);
        let (mut bc, mut ca, mut ab) = (
            Edge::new(b, c, x, y),
            Edge::new(c, a, x, y),
            Edge::new(a, b, x, y),
        );
        let step = Weights {
            a: bc.across,
            b: ca.across,
            c: ab.across,
        };
        for j in top..bottom {
            let (mut p, mut q, mut r) = (bc.at, ca.at, ab.at);
            let mut from = left;
            while from < right && p | q | r < 0 {
                (p, q, r) = (p + bc.across, q + ca.across, r + ab.across);
                from += 1;
            }
            let first = Weights {
                a: p + bc.less,
                b: q + ca.less,
                c: r + ab.less,
            };
            let mut to = from;
            while to < right && p | q | r >= 0 {
                (p, q, r) = (p + bc.across, q + ca.across, r + ab.across);
                to += 1;
            }
            if from < to {
                paint(Span {
                    row: j as usize,
                    dots: from as usize..to as usize,
                    first,
                    step,
                });
            }
            bc.at += bc.down;
            ca.at += ca.down;
            ab.at += ab.down;
        }
    }

    // A quantity along a span.
    fn along<T: Into<i64>>(&self, span: &Span, of: impl Fn(&Point) -> T) -> Quantity {
        let (f, g, h) = (of(&self.a).into(), of(&self.b).into(), of(&self.c).into());
        let sum = |weights: &Weights| weights.a * f + weights.b * g + weights.c * h;
        Quantity {
            first: sum(&span.first),
            step: sum(&span.step),
            area: self.area,
        }
    }
}

// A quantity times the area, along a span.
struct Quantity {
    first: i64,
    step: i64,
    area: Divisor,
}

impl Quantity {
    // A narrow k keeps the compiler from stepping all quantities at every dot, where a product at the painted ones is cheaper.
    fn at(&self, k: u32) -> u64 {
        self.area
            .quotient((self.first + i64::from(k) * self.step) as u64)
    }
}

// What is done with the commands of a file.
trait Target {
    fn begin(&mut self, size: Size);

    fn clear(&mut self, frame: Frame, colour: [u8; 3], depth: u16);

    fn triangle(&mut self, pen: &Pen, texture: Option<&Texture>, triangle: &Triangle);

    fn show(&mut self);
}

// Hands on what a file says, from front to back, and gives how many triangles it has.
fn walk(file: &[u8], target: &mut impl Target) -> Result<usize, String> {
    let mut reader = Reader { rest: file };
    if reader.array()? != b"DOTS" {
        return Err("the file does not begin with DOTS".into());
    }
    let size = Size {
        width: usize::from(reader.u16()?),
        height: usize::from(reader.u16()?),
    };
    let mut textures = Vec::new();
    for _ in 0..reader.u8()? {
        textures.push(Texture::read(&mut reader)?);
    }
    target.begin(size);
    let mut pen = Pen::at_start(size);
    let mut look = Look::default();
    let mut triangles = 0;
    for _ in 0..reader.u16()? {
        match reader.u8()? {
            1 => {
                pen = Pen::read(&mut reader)?;
                if pen.texture > textures.len() || !pen.frame.is_within(size) {
                    return Err("a pen is out of bounds".into());
                }
            }
            2 => look = Look::read(&mut reader)?,
            3 => {
                let &colour = reader.array()?;
                let depth = reader.u16()?;
                target.clear(pen.frame, colour, depth);
            }
            4 => {
                let texture = pen.texture.checked_sub(1).map(|k| &textures[k]);
                for _ in 0..reader.u16()? {
                    triangles += 1;
                    let mut point = || reader.array().map(|bytes| look.point(&Corner::of(bytes)));
                    let (Some(a), Some(b), Some(c)) = (point()?, point()?, point()?) else {
                        continue;
                    };
                    if let Some(triangle) = Triangle::new(a, b, c) {
                        target.triangle(&pen, texture, &triangle);
                    }
                }
            }
            5 => target.show(),
            other => return Err(format!("there is no command {other}")),
        }
    }
    if !reader.rest.is_empty() {
        return Err("bytes go on behind the last command".into());
    }
    Ok(triangles)
}

#[derive(Default)]
struct Picture {
    width: usize,
    colours: Vec<[u8; 3]>,
    depths: Vec<u16>,
    shown: Vec<u8>,
}

fn times([r, g, b, a]: [u8; 4], dot: [u8; 4]) -> [u8; 4] {
    let part =
        |colour: u8, texture: u8| ((u32::from(colour) * u32::from(texture) + 127) / 255) as u8;
    [
        part(r, dot[0]),
        part(g, dot[1]),
        part(b, dot[2]),
        part(a, dot[3]),
    ]
}

fn replace([r, g, b, _]: [u8; 4], _: [u8; 3]) -> [u8; 3] {
    [r, g, b]
}

fn blend([r, g, b, a]: [u8; 4], old: [u8; 3]) -> [u8; 3] {
    let part = |new: u8, old: u8| {
        ((u32::from(new) * u32::from(a) + u32::from(old) * u32::from(255 - a) + 127) / 255) as u8
    };
    [part(r, old[0]), part(g, old[1]), part(b, old[2])]
}

fn add([r, g, b, _]: [u8; 4], old: [u8; 3]) -> [u8; 3] {
    [
        r.saturating_add(old[0]),
        g.saturating_add(old[1]),
        b.saturating_add(old[2]),
    ]
}

// The loops below are compiled once for each test, mix, and with and without a texture, so that no dot asks for them.
impl Picture {
    fn mixed(
        &mut self,
        pen: &Pen,
        triangle: &Triangle,
        bring: impl Fn([u8; 4], u16, u16) -> [u8; 4],
    ) {
        match pen.mix {
            Mix::Replace => self.tested(pen, triangle, bring, replace),
            Mix::Blend => self.tested(pen, triangle, bring, blend),
            Mix::Add => self.tested(pen, triangle, bring, add),
        }
    }

    fn tested(
        &mut self,
        pen: &Pen,
        triangle: &Triangle,
        bring: impl Fn([u8; 4], u16, u16) -> [u8; 4],
        mix: impl Fn([u8; 4], [u8; 3]) -> [u8; 3],
    ) {
        match pen.test {
            Test::Always => self.paint(pen, triangle, |_, _| true, bring, mix),
            Test::Less => self.paint(pen, triangle, |new, old| new < old, bring, mix),
            Test::LessOrEqual => self.paint(pen, triangle, |new, old| new <= old, bring, mix),
            Test::Equal => self.paint(pen, triangle, |new, old| new == old, bring, mix),
            Test::Never => {}
        }
    }

    fn paint(
        &mut self,
        pen: &Pen,
        triangle: &Triangle,
        passes: impl Fn(u16, u16) -> bool,
        bring: impl Fn([u8; 4], u16, u16) -> [u8; 4],
        mix: impl Fn([u8; 4], [u8; 3]) -> [u8; 3],
    ) {
        triangle.spans(pen.frame, |span| {
            let depth = triangle.along(&span, |point| point.depth);
            let u = triangle.along(&span, |point| point.u);
            let v = triangle.along(&span, |point| point.v);
            let red = triangle.along(&span, |point| point.colour[0]);
            let green = triangle.along(&span, |point| point.colour[1]);
            let blue = triangle.along(&span, |point| point.colour[2]);
            let fourth = triangle.along(&span, |point| point.colour[3]);
            let row = span.row * self.width;
            let places = row + span.dots.start..row + span.dots.end;
            let colours = &mut self.colours[places.clone()];
            let depths = &mut self.depths[places];
            for (k, (old, old_depth)) in (0..).zip(colours.iter_mut().zip(depths)) {
                let new_depth = depth.at(k) as u16;
                if passes(new_depth, *old_depth) {
                    if pen.keeps {
                        *old_depth = new_depth;
                    }
                    let colour = [
                        red.at(k) as u8,
                        green.at(k) as u8,
                        blue.at(k) as u8,
                        fourth.at(k) as u8,
                    ];
                    *old = mix(bring(colour, u.at(k) as u16, v.at(k) as u16), *old);
                }
            }
        });
    }
}

impl Target for Picture {
    fn begin(&mut self, size: Size) {
        let dots = size.width * size.height;
        self.width = size.width;
        self.colours.clear();
        self.colours.resize(dots, [0; 3]);
        self.depths.clear();
        self.depths.resize(dots, 65_535);
        self.shown.clear();
    }

    fn clear(&mut self, frame: Frame, colour: [u8; 3], depth: u16) {
        for j in frame.top..frame.bottom {
            let row = j * self.width;
            self.colours[row + frame.left..row + frame.right].fill(colour);
            self.depths[row + frame.left..row + frame.right].fill(depth);
        }
    }

    fn triangle(&mut self, pen: &Pen, texture: Option<&Texture>, triangle: &Triangle) {
        match texture {
            // A colour times 255 everywhere is the colour.
            None => self.mixed(pen, triangle, |colour, _, _| colour),
            Some(texture) => self.mixed(pen, triangle, |colour, u, v| {
                times(colour, texture.at(u, v))
            }),
        }
    }

    fn show(&mut self) {
        self.shown.extend_from_slice(self.colours.as_flattened());
    }
}

// How many dots are covered, by as many triangles as do.
#[derive(Default)]
struct Count {
    width: usize,
    height: usize,
    covered: usize,
}

impl Target for Count {
    fn begin(&mut self, size: Size) {
        self.width = size.width;
        self.height = size.height;
    }

    fn clear(&mut self, _: Frame, _: [u8; 3], _: u16) {}

    fn triangle(&mut self, pen: &Pen, _: Option<&Texture>, triangle: &Triangle) {
        triangle.spans(pen.frame, |span| self.covered += span.dots.len());
    }

    fn show(&mut self) {}
}

struct Options {
    file: String,
    frames: u32,
    out: Option<String>,
    count: bool,
}

impl Options {
    fn parse(mut words: impl Iterator<Item = String>) -> Result<Options, String> {
        let mut options = Options {
            file: String::new(),
            frames: 5,
            out: None,
            count: false,
        };
        while let Some(word) = words.next() {
            match word.as_str() {
                "--frames" => {
                    let number = words.next().and_then(|n| n.parse().ok()).filter(|&n| n > 0);
                    options.frames = number.ok_or("--frames wants a number above 0")?;
                }
                "--out" => options.out = Some(words.next().ok_or("--out wants a name")?),
                "--count" => options.count = true,
                _ => options.file = word,
            }
        }
        if options.file.is_empty() {
            return Err(HELP.into());
        }
        Ok(options)
    }
}

fn run() -> Result<(), String> {
    let options = Options::parse(env::args().skip(1))?;
    let file = fs::read(&options.file).map_err(|error| format!("{}: {error}", options.file))?;
    if options.count {
        let mut count = Count::default();
        let triangles = walk(&file, &mut count)?;
        let Count {
            width,
            height,
            covered,
        } = count;
        println!(
            "{triangles} {width} {height} {:.2}",
            covered as f64 / (width * height) as f64
        );
        return Ok(());
    }
    let mut picture = Picture::default();
    let mut best = Duration::MAX;
    for _ in 0..options.frames {
        let start = Instant::now();
        walk(&file, &mut picture)?;
        best = best.min(start.elapsed());
    }
    if let Some(name) = &options.out {
        fs::write(name, &picture.shown).map_err(|error| format!("{name}: {error}"))?;
    }
    println!("{:.3}", best.as_secs_f64() * 1000.0);
    Ok(())
}

fn main() -> ExitCode {
    match run() {
        Ok(()) => ExitCode::SUCCESS,
        Err(message) => {
            eprintln!("plain: {message}");
            ExitCode::FAILURE
        }
    }
}
