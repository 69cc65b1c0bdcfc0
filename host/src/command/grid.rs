//! A part as a file: a line `mittenhelm-grid NX NY NZ`, then that many f32 samples. samples/README.md describes it.

use super::arguments::whole;
use super::fault::Fault;
use super::fields::Point;
use super::output::shown;
use super::progress::Progress;
use std::fmt::{self, Display};
use std::fs::File;
use std::io::{self, BufRead, BufReader, Read, Write};
use std::ops::RangeInclusive;
use std::path::Path;

const NAME: &str = "mittenhelm-grid";
/// No first line is longer.
const LINE: u64 = 64;
/// How many samples an axis has: two at least, for a value between them, and at most so many that all take half a GiB.
pub const POINTS: RangeInclusive<u32> = 2..=512;

/// How many samples there are on each axis, x first.
#[derive(Clone, Copy)]
pub struct Size(pub [u32; 3]);

impl Size {
    pub fn new(axes: [u32; 3]) -> Option<Self> {
        Some(Size(axes)).filter(|_| axes.iter().all(|points| POINTS.contains(points)))
    }

    pub fn samples(self) -> usize {
        self.0.iter().map(|&points| points as usize).product()
    }

    fn place(self, [x, y, z]: [usize; 3]) -> usize {
        let [across, deep, _] = self.0;
        (z * deep as usize + y) * across as usize + x
    }

    /// The inverse of `place`.
    fn at(self, place: usize) -> [usize; 3] {
        let [across, deep, _] = self.0.map(|points| points as usize);
        [place % across, place / across % deep, place / across / deep]
    }

    fn point(self, place: usize) -> Point {
        let at = self.at(place);
        [0, 1, 2].map(|axis| at[axis] as f32 / (self.0[axis] - 1) as f32)
    }
}

impl Display for Size {
    fn fmt(&self, f: &mut fmt::Formatter<'_>) -> fmt::Result {
        let [x, y, z] = self.0;
        write!(f, "{x} x {y} x {z}")
    }
}

pub struct Grid {
    pub size: Size,
    samples: Vec<f32>,
}

impl Grid {
    pub fn read(path: &Path, progress: &mut Progress) -> Result<Self, Fault> {
        Grid::open(path, progress).map_err(|wrong| Fault::file(&shown(path.as_os_str()), wrong))
    }

    fn open(path: &Path, progress: &mut Progress) -> Result<Self, String> {
        let told = |e: io::Error| e.to_string();
        let file = File::open(path).map_err(told)?;
        if file.metadata().map_err(told)?.is_dir() {
            return Err("a folder, and no grid file".to_string());
        }
        let mut from = BufReader::new(file);
        let grid = Grid::take_all(&mut from, progress)?;
        match from.fill_buf().map_err(told)? {
            [] => Ok(grid),
            _ => Err(format!("goes on after its {} samples", grid.size)),
        }
    }

    fn take_all(from: &mut impl BufRead, progress: &mut Progress) -> Result<Self, String> {
        let size = first_line(from)?;
        let mut grid = Grid { size, samples: Vec::new() };
        // The samples come layer by layer, so that a file that promises too much takes no memory for it.
        let layer = size.samples() / size.0[2] as usize;
        let mut bytes = vec![0; 4 * layer];
        for _ in 0..size.0[2] {
            from.read_exact(&mut bytes).map_err(|e| grid.ended(e))?;
            grid.samples.try_reserve(layer).map_err(|e| e.to_string())?;
            for sample in bytes.chunks_exact(4) {
                grid.take(f32::from_le_bytes([sample[0], sample[1], sample[2], sample[3]]))?;
            }
            progress.say_part("reading samples", grid.samples.len(), size.samples());
        }
        Ok(grid)
    }

    fn ended(&self, e: io::Error) -> String {
        match e.kind() {
            io::ErrorKind::UnexpectedEof => format!("ends before its {} samples are there", self.size),
            _ => e.to_string(),
        }
    }

    fn take(&mut self, sample: f32) -> Result<(), String> {
        if !sample.is_finite() {
            let [x, y, z] = self.size.at(self.samples.len());
            return Err(format!("the sample at x {x}, y {y}, z {z} is {sample}, and no distance"));
        }
        self.samples.push(sample);
        Ok(())
    }

    /// The value at a point of the cube, between the eight samples around it.
    pub fn distance(&self, point: Point) -> f32 {
        // A double holds the difference of any two samples, so that nothing overflows.
        let mut low = [0; 3];
        let mut part = [0.0; 3];
        for axis in 0..3 {
            let intervals = self.size.0[axis] - 1;
            let at = f64::from(point[axis]).clamp(0.0, 1.0) * f64::from(intervals);
            low[axis] = (at as usize).min(intervals as usize - 1);
            part[axis] = at - low[axis] as f64;
        }
        let sample = |x, y, z| f64::from(self.samples[self.size.place([low[0] + x, low[1] + y, low[2] + z])]);
        let mix = |a: f64, b: f64, part: f64| a + (b - a) * part;
        let along_x = |y, z| mix(sample(0, y, z), sample(1, y, z), part[0]);
        let along_y = |z| mix(along_x(0, z), along_x(1, z), part[1]);
        mix(along_y(0), along_y(1), part[2]) as f32
    }
}

fn first_line(from: &mut impl BufRead) -> Result<Size, String> {
    let mut line = Vec::new();
    from.take(LINE).read_until(b'\n', &mut line).map_err(|e| e.to_string())?;
    let line = line.strip_suffix(b"\n").and_then(|line| std::str::from_utf8(line).ok());
    let words: Vec<&str> = line.unwrap_or("").split(' ').collect();
    match words[..] {
        [NAME, x, y, z] => size_of([x, y, z]).ok_or_else(|| {
            let (least, most) = (POINTS.start(), POINTS.end());
            format!("a grid has {least} to {most} samples on each axis, and not {}", shown([x, y, z].join(" x ").as_ref()))
        }),
        _ => Err(format!("no grid file: its first line isn't `{NAME} NX NY NZ`")),
    }
}

/// The size that three decimal numbers give.
pub fn size_of(words: [&str; 3]) -> Option<Size> {
    let [x, y, z] = words.map(whole);
    Size::new([x?, y?, z?])
}

/// Writes the samples of a field as a grid file.
pub fn write(out: &mut dyn Write, size: Size, field: impl Fn(Point) -> f32, progress: &mut Progress) -> io::Result<()> {
    let [x, y, z] = size.0;
    writeln!(out, "{NAME} {x} {y} {z}")?;
    let row = x as usize;
    for first in (0..size.samples()).step_by(row) {
        progress.say_part("sampling", first, size.samples());
        for place in first..first + row {
            out.write_all(&field(size.point(place)).to_le_bytes())?;
        }
    }
    Ok(())
}
