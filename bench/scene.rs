// Makes a harbour of as many triangles as are wanted, the same in every run: a sky, hills, quays with sheds, water, ships, foam, smoke and lamps.
// Lengths are 256 to a metre; x goes to the right, y away from the eye, z up, with 0 at the water.
use std::env;
use std::fs;
use std::process::ExitCode;

const HELP: &str =
    "scene TRIANGLES WIDTH HEIGHT FILE: writes a harbour to a file of drawing commands.";

// As many triangles go into one command.
const TOGETHER: usize = 300;

// From 15 metres above the water, turned a little to the left and down; a quarter of a length is left.
const LOOK: [[i32; 4]; 3] = [
    [16_344, 1_143, 0, 0],
    [139, -1_992, -16_262, 243_930],
    [-1_134, 16_222, -1_997, 29_955],
];

const CLOUDS: u8 = 1;
const GRASS: u8 = 2;
const STONES: u8 = 3;
const WALL: u8 = 4;
const WAVES: u8 = 5;
const SMOKE: u8 = 6;

// The textures in their order: powers across and down, how light and how grainy they are, and the least and most of their fourth part.
const TEXTURES: [(u32, u32, u8, u8, u8, u8); 6] = [
    (6, 6, 230, 24, 0, 255),
    (7, 7, 190, 60, 255, 255),
    (5, 5, 200, 50, 255, 255),
    (3, 5, 180, 70, 255, 255),
    (6, 5, 210, 40, 160, 255),
    (5, 5, 220, 30, 0, 200),
];

// xorshift64
struct Random(u64);

impl Random {
    fn next(&mut self) -> u64 {
        self.0 ^= self.0 << 13;
        self.0 ^= self.0 >> 7;
        self.0 ^= self.0 << 17;
        self.0
    }

    fn between(&mut self, least: i64, most: i64) -> i64 {
        least + ((self.next() >> 16) % (most - least + 1) as u64) as i64
    }
}

// A height between 0 and 1 that is the same at the same place, and smooth between places.
fn noise(x: f64, y: f64) -> f64 {
    let at = |i: f64, j: f64| {
        let mut random =
            Random(((i as i64 * 73_856_093) ^ (j as i64 * 19_349_663)) as u64 | 1 << 40);
        random.next();
        random.next();
        (random.next() >> 40) as f64 / f64::from(1 << 24)
    };
    let (i, j) = (x.floor(), y.floor());
    let ease = |t: f64| t * t * (3.0 - 2.0 * t);
    let (s, t) = (ease(x - i), ease(y - j));
    let row = |j: f64| at(i, j) * (1.0 - s) + at(i + 1.0, j) * s;
    row(j) * (1.0 - t) + row(j + 1.0) * t
}

#[derive(Clone, Copy)]
struct Corner {
    place: [f64; 3],
    u: f64,
    v: f64,
    colour: [u8; 4],
}

impl Corner {
    fn write(&self, file: &mut Vec<u8>) {
        for part in self.place {
            file.extend((part.round() as i32).to_le_bytes());
        }
        for part in [self.u, self.v] {
            file.extend((part.round().clamp(0.0, 65_535.0) as u16).to_le_bytes());
        }
        file.extend(self.colour);
    }
}

type Triangle = [Corner; 3];

// A colour made lighter or darker by up to a sixth, as is usual at a place.
fn shade([r, g, b, a]: [u8; 4], x: f64, y: f64) -> [u8; 4] {
    let light = 0.83 + 0.34 * noise(x * 3.7, y * 3.7);
    let part = |p: u8| (f64::from(p) * light).min(255.0) as u8;
    [part(r), part(g), part(b), a]
}

// A patch of cells of two triangles each, as many as the wanted triangles allow, with about `shape` times as many across as down; `at` gives its corners, from 0 to 1 both ways.
fn patch(wanted: usize, shape: f64, at: impl Fn(f64, f64) -> Corner) -> Vec<Triangle> {
    let cells = wanted / 2;
    if cells == 0 {
        return Vec::new();
    }
    let across = ((cells as f64 * shape).sqrt() as usize).clamp(1, cells);
    let down = cells / across;
    let corner = |i: usize, j: usize| at(i as f64 / across as f64, j as f64 / down as f64);
    let mut triangles = Vec::new();
    for j in 0..down {
        for i in 0..across {
            let (a, b, c, d) = (
                corner(i, j),
                corner(i + 1, j),
                corner(i + 1, j + 1),
                corner(i, j + 1),
            );
            triangles.push([a, b, c]);
            triangles.push([a, c, d]);
        }
    }
    triangles
}

// Four sides and a roof.
struct Block {
    // The least x, y and z, and how far it goes from there.
    from: [f64; 3],
    long: [f64; 3],
    colour: [u8; 4],
}

impl Block {
    fn triangles(&self, wanted: usize) -> Vec<Triangle> {
        let [x, y, z] = self.from;
        let [w, d, h] = self.long;
        let side = |from: [f64; 3], s: [f64; 3], t: [f64; 3], light: f64| {
            let colour = self.colour;
            patch(wanted / 5, 1.5, move |p, q| {
                let place = [0, 1, 2].map(|k| from[k] + p * s[k] + q * t[k]);
                let [r, g, b, a] = shade(
                    colour,
                    place[0] / 900.0 + place[1] / 1100.0,
                    place[2] / 700.0,
                );
                let part = |c: u8| (f64::from(c) * light) as u8;
                let length = |v: [f64; 3]| v[0].abs() + v[1].abs() + v[2].abs();
                Corner {
                    place,
                    u: 2.0 * p * length(s),
                    v: 2.0 * q * length(t),
                    colour: [part(r), part(g), part(b), a],
                }
            })
        };
        let mut all = side([x, y + d, z], [w, 0.0, 0.0], [0.0, 0.0, h], 0.7);
        all.extend(side([x, y, z], [0.0, d, 0.0], [0.0, 0.0, h], 0.8));
        all.extend(side([x + w, y, z], [0.0, d, 0.0], [0.0, 0.0, h], 0.9));
        all.extend(side([x, y, z], [w, 0.0, 0.0], [0.0, 0.0, h], 1.0));
        all.extend(side([x, y, z + h], [w, 0.0, 0.0], [0.0, d, 0.0], 0.95));
        all
    }
}

// A flat piece that stands upright and faces the eye.
fn board(
    wanted: usize,
    x: f64,
    y: f64,
    z: f64,
    size: f64,
    colour: [u8; 4],
    rim: [u8; 4],
) -> Vec<Triangle> {
    patch(wanted, 1.0, |p, q| {
        let inner = p > 0.01 && p < 0.99 && q > 0.01 && q < 0.99 || wanted <= 2 && p == q;
        let place = [x + size * (p - 0.5), y, z + size * (q - 0.5)];
        Corner {
            place,
            u: 8_191.0 * p,
            v: 8_191.0 * q,
            colour: if inner { colour } else { rim },
        }
    })
}

// A distance between two such that even steps of t are even on the picture.
fn away(near: f64, far: f64, t: f64) -> f64 {
    1.0 / ((1.0 - t) / near + t / far)
}

struct Scene {
    width: u16,
    height: u16,
    commands: u16,
    body: Vec<u8>,
    triangles: usize,
    test: u8,
}

impl Scene {
    fn new(width: u16, height: u16) -> Scene {
        Scene {
            width,
            height,
            commands: 0,
            body: Vec::new(),
            triangles: 0,
            test: 1,
        }
    }

    fn command(&mut self, kind: u8) {
        self.commands += 1;
        self.body.push(kind);
    }

    fn look(&mut self) {
        self.command(2);
        let (width, height) = (i32::from(self.width), i32::from(self.height));
        let numbers = LOOK
            .into_iter()
            .flatten()
            .chain([222 * width, 128 * width, 128 * height]);
        self.body.extend(numbers.flat_map(i32::to_le_bytes));
    }

    fn clear(&mut self, colour: [u8; 3]) {
        self.command(3);
        self.body.extend(colour);
        self.body.extend(u16::MAX.to_le_bytes());
    }

    // Paints triangles, some together; tests 1 and 2 take turns.
    fn paint(&mut self, keeps: bool, mix: u8, texture: u8, triangles: &[Triangle]) {
        for some in triangles.chunks(TOGETHER) {
            self.command(1);
            self.body.extend([self.test, u8::from(keeps), mix, texture]);
            self.test = 3 - self.test;
            self.body.extend(
                [0, 0, self.width, self.height]
                    .into_iter()
                    .flat_map(u16::to_le_bytes),
            );
            self.command(4);
            self.body.extend((some.len() as u16).to_le_bytes());
            for corner in some.iter().flatten() {
                corner.write(&mut self.body);
            }
        }
        self.triangles += triangles.len();
    }

    fn file(&self, textures: &[u8]) -> Vec<u8> {
        let mut file = b"DOTS".to_vec();
        file.extend(self.width.to_le_bytes());
        file.extend(self.height.to_le_bytes());
        file.push(TEXTURES.len() as u8);
        file.extend(textures);
        file.extend(self.commands.to_le_bytes());
        file.extend(&self.body);
        file
    }
}

fn textures(random: &mut Random) -> Vec<u8> {
    let mut bytes = Vec::new();
    for (across, down, light, grain, least, most) in TEXTURES {
        bytes.extend([across as u8, down as u8]);
        for k in 0..1u32 << (across + down) {
            let (i, j) = (k & ((1 << across) - 1), k >> across);
            let cloud = noise(f64::from(i) / 7.0, f64::from(j) / 7.0);
            let part = (i64::from(light) - random.between(0, grain.into())) as u8;
            // Joints between stones and planks.
            let joint = if least == most && (i % 8 == 0 || j % 8 == 0) {
                40
            } else {
                0
            };
            let fourth = f64::from(least) + cloud * f64::from(most - least);
            bytes.extend([part - joint, part - joint, part - joint, fourth as u8]);
        }
    }
    bytes
}

// Behind everything, also below the water.
fn sky(wanted: usize) -> Vec<Triangle> {
    patch(wanted, 2.0, |s, t| {
        let place = [665_600.0 * (s - 0.5), 384_000.0, 460_000.0 * t - 240_000.0];
        Corner {
            place,
            u: 40_000.0 * s,
            v: 60_000.0 * t,
            colour: shade([225, 232, 240, 230], 8.0 * s, 8.0 * t),
        }
    })
}

// A ridge of hills at a distance.
fn hills(wanted: usize, distance: f64, height: f64) -> Vec<Triangle> {
    patch(wanted, 4.0, |s, t| {
        let y = distance * (1.0 + 0.3 * t);
        let x = 1.7 * y * (s - 0.5);
        let rise =
            noise(x / 30_000.0 + distance, y / 30_000.0) + 0.3 * noise(x / 6_000.0, y / 6_000.0);
        let place = [x, y, height * rise * t.min(0.7) - 300.0];
        Corner {
            place,
            u: 60_000.0 * s,
            v: 30_000.0 * t,
            colour: shade([110, 140, 95, 255], x / 9_000.0, y / 9_000.0),
        }
    })
}

// The flat top of a quay.
fn quay(wanted: usize, left: f64, right: f64) -> Vec<Triangle> {
    patch(wanted, 0.6, |s, t| {
        let y = away(14_000.0, 110_000.0, t);
        let place = [left + (right - left) * s, y, 768.0];
        Corner {
            place,
            u: 40_000.0 * s,
            v: (y - 14_000.0) / 2.0,
            colour: shade([150, 148, 140, 255], s * 9.0, t * 9.0),
        }
    })
}

fn sheds(wanted: usize, random: &mut Random) -> Vec<Triangle> {
    let many = (wanted / 20).clamp(1, 40);
    let mut all = Vec::new();
    for k in 0..many {
        let [w, d, h] = [(9, 25), (10, 20), (6, 14)]
            .map(|(least, most)| 256.0 * random.between(least, most) as f64);
        let y = away(16_000.0, 100_000.0, k as f64 / many as f64);
        let x = if k % 2 == 0 {
            -11_000.0 - w - random.between(0, 18_000) as f64
        } else {
            14_000.0 + random.between(0, 18_000) as f64
        };
        let colour = [
            random.between(110, 190) as u8,
            random.between(90, 150) as u8,
            random.between(70, 140) as u8,
            255,
        ];
        all.extend(
            Block {
                from: [x, y, 768.0],
                long: [w, d, h],
                colour,
            }
            .triangles(wanted / many),
        );
    }
    all
}

fn water(wanted: usize, height: f64, colour: [u8; 4]) -> Vec<Triangle> {
    patch(wanted, 1.0, |s, t| {
        let y = away(4_352.0, 370_000.0, t);
        let x = 1.5 * y * (s - 0.5);
        let place = [
            x,
            y,
            height + 120.0 * noise(x / 1_500.0, y / 1_500.0) - 60.0,
        ];
        Corner {
            place,
            u: 60_000.0 * s,
            v: 60_000.0 * t,
            colour: shade(colour, x / 1_200.0, y / 1_200.0),
        }
    })
}

// Hulls with a cabin each.
fn ships(wanted: usize, random: &mut Random) -> Vec<Triangle> {
    let many = (wanted / 20).clamp(1, 8);
    let mut all = Vec::new();
    for k in 0..many {
        let y = away(13_000.0, 70_000.0, k as f64 / many as f64);
        let x = random.between(-9_000, 3_000) as f64;
        let [w, d, h] = [(18, 40), (8, 14), (3, 6)]
            .map(|(least, most)| 256.0 * random.between(least, most) as f64);
        let colour = [
            random.between(60, 200) as u8,
            random.between(50, 120) as u8,
            random.between(50, 120) as u8,
            255,
        ];
        let hull = Block {
            from: [x, y, -100.0],
            long: [w, d, h],
            colour,
        };
        let cabin = Block {
            from: [x + w / 2.0, y + d / 4.0, h],
            long: [w / 4.0, d / 2.0, 1.5 * h],
            colour: [225, 222, 210, 255],
        };
        all.extend(hull.triangles(wanted / many * 2 / 3));
        all.extend(cabin.triangles(wanted / many / 3));
    }
    all
}

fn boards(wanted: usize, colour: [u8; 4], rim: [u8; 4], random: &mut Random) -> Vec<Triangle> {
    let many = (wanted / 2).clamp(1, 12);
    let mut all = Vec::new();
    for _ in 0..many {
        let y = random.between(15_000, 40_000) as f64;
        let x = random.between(-12_000, 12_000) as f64;
        let z = random.between(2_000, 6_000) as f64;
        all.extend(board(
            wanted / many,
            x,
            y,
            z,
            random.between(400, 2_600) as f64,
            colour,
            rim,
        ));
    }
    all
}

// Small birds before the sky.
fn gulls(wanted: usize, random: &mut Random) -> Vec<Triangle> {
    let gull = |random: &mut Random| {
        let y = random.between(12_000, 60_000) as f64;
        let x = random.between(-6_000, 6_000) as f64 * y / 12_000.0;
        let z = random.between(4_000, 6_000) as f64 * y / 12_000.0;
        [(0.0, 0.0), (180.0, 90.0), (30.0, -60.0)].map(|(dx, dz)| Corner {
            place: [x + dx, y, z + dz],
            u: 0.0,
            v: 0.0,
            colour: [240, 240, 235, 255],
        })
    };
    (0..wanted).map(|_| gull(random)).collect()
}

fn harbour(triangles: usize, width: u16, height: u16) -> Vec<u8> {
    let mut random = Random(20_261_118);
    let share = |percent: usize| triangles * percent / 100;
    let textures = textures(&mut random);
    let mut scene = Scene::new(width, height);
    scene.look();
    scene.clear([158, 190, 222]);
    scene.paint(false, 1, CLOUDS, &sky(share(5)));
    scene.paint(true, 0, GRASS, &hills(share(6), 300_000.0, 60_000.0));
    scene.paint(true, 0, GRASS, &hills(share(6), 200_000.0, 36_000.0));
    scene.paint(true, 0, GRASS, &hills(share(6), 120_000.0, 16_000.0));
    scene.paint(true, 0, WAVES, &water(share(26), 0.0, [90, 128, 148, 255]));
    scene.paint(true, 0, STONES, &quay(share(5), -45_000.0, -9_000.0));
    scene.paint(true, 0, STONES, &quay(share(5), 13_000.0, 50_000.0));
    scene.paint(true, 0, WALL, &sheds(share(24), &mut random));
    scene.paint(true, 0, 0, &ships(share(11), &mut random));
    scene.paint(false, 1, WAVES, &water(share(3), 90.0, [225, 232, 240, 60]));
    scene.paint(
        false,
        1,
        SMOKE,
        &boards(
            share(3),
            [110, 110, 110, 160],
            [110, 110, 110, 40],
            &mut random,
        ),
    );
    scene.paint(
        false,
        2,
        0,
        &boards(share(2), [90, 75, 40, 255], [0, 0, 0, 255], &mut random),
    );
    scene.paint(
        true,
        0,
        0,
        &gulls(triangles.saturating_sub(scene.triangles), &mut random),
    );
    scene.command(5);
    scene.file(&textures)
}

fn run() -> Result<(), String> {
    let words: Vec<String> = env::args().skip(1).collect();
    let [triangles, width, height, name] = words.as_slice() else {
        return Err(HELP.into());
    };
    let size = |word: &String| {
        word.parse()
            .ok()
            .filter(|n| (1..=1024).contains(n))
            .ok_or("a side is not from 1 to 1024")
    };
    let triangles = triangles
        .parse()
        .map_err(|_| "the triangles are no number")?;
    let file = harbour(triangles, size(width)?, size(height)?);
    fs::write(name, file).map_err(|error| format!("{name}: {error}"))
}

fn main() -> ExitCode {
    match run() {
        Ok(()) => ExitCode::SUCCESS,
        Err(message) => {
            eprintln!("scene: {message}");
            ExitCode::FAILURE
        }
    }
}
