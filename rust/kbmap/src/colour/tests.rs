//! Contrast of labels, and distances of fills as four kinds of readers see them.

use super::*;

type Vector = [f64; 3];
type Matrix = [Vector; 3];

/// Linear sRGB to the XYZ of 1931, for its white.
const XYZ_OF_RGB: Matrix = [[0.4124, 0.3576, 0.1805], [0.2126, 0.7152, 0.0722], [0.0193, 0.1192, 0.9505]];
/// XYZ to the answers of the long, middle and short cones (Hunt, Pointer and Estevez), 1 each for that white.
const CONES_OF_XYZ: Matrix = [[0.4002, 0.7076, -0.0808], [-0.2263, 1.1653, 0.0457], [0.0, 0.0, 0.9182]];

fn apply(matrix: &Matrix, vector: Vector) -> Vector {
    matrix.map(|row| row[0] * vector[0] + row[1] * vector[1] + row[2] * vector[2])
}

fn determinant([a, b, c]: [Vector; 3]) -> f64 {
    a[0] * (b[1] * c[2] - b[2] * c[1]) - a[1] * (b[0] * c[2] - b[2] * c[0]) + a[2] * (b[0] * c[1] - b[1] * c[0])
}

/// The vector that a matrix maps to this one (Cramer).
fn solve(matrix: &Matrix, vector: Vector) -> Vector {
    let whole = determinant(*matrix);
    [0, 1, 2].map(|column| {
        let mut changed = *matrix;
        for row in 0..3 {
            changed[row][column] = vector[row];
        }
        determinant(changed) / whole
    })
}

fn cones(rgb: Vector) -> Vector {
    apply(&CONES_OF_XYZ, apply(&XYZ_OF_RGB, rgb))
}

/// A kind of reader. What one sees who lacks a kind of cones is told in two ways, since the models of it differ.
#[derive(Clone, Copy, Debug)]
enum Reader {
    Full,
    /// The cones that are lacking seem to answer with a mixture of the other two kinds' answers, such that white stays
    /// white and one primary, blue or red, stays as it is.
    Lacks {
        cone: usize,
        primary: Vector,
    },
    /// Linear sRGB to what is seen of it, by Machado, Oliveira and Fernandes, 2009.
    Mixes(Matrix),
}

const READERS: [Reader; 7] = [
    Reader::Full,
    Reader::Lacks { cone: 0, primary: [0.0, 0.0, 1.0] },
    Reader::Lacks { cone: 1, primary: [0.0, 0.0, 1.0] },
    Reader::Lacks { cone: 2, primary: [1.0, 0.0, 0.0] },
    Reader::Mixes([[0.1523, 1.0526, -0.2049], [0.1145, 0.7863, 0.0992], [-0.0039, -0.0481, 1.0520]]),
    Reader::Mixes([[0.3673, 0.8606, -0.2280], [0.2801, 0.6725, 0.0474], [-0.0118, 0.0429, 0.9689]]),
    Reader::Mixes([[1.2555, -0.0767, -0.1788], [-0.0784, 0.9308, 0.1476], [0.0047, 0.6914, 0.3039]]),
];

impl Reader {
    /// What the reader sees of a colour, as XYZ.
    fn sees(self, colour: Colour) -> Vector {
        let rgb = [colour.red, colour.green, colour.blue].map(linear);
        match self {
            Reader::Full => apply(&XYZ_OF_RGB, rgb),
            Reader::Mixes(matrix) => apply(&XYZ_OF_RGB, apply(&matrix, rgb).map(|part| part.clamp(0.0, 1.0))),
            Reader::Lacks { cone, primary } => {
                let (one, two) = ((cone + 1) % 3, (cone + 2) % 3);
                let (white, primary) = (cones([1.0; 3]), cones(primary));
                let part = white[one] * primary[two] - white[two] * primary[one];
                let of_one = (white[cone] * primary[two] - white[two] * primary[cone]) / part;
                let of_two = (white[one] * primary[cone] - white[cone] * primary[one]) / part;
                let mut seen = cones(rgb);
                seen[cone] = of_one * seen[one] + of_two * seen[two];
                solve(&CONES_OF_XYZ, seen)
            }
        }
    }

    /// A colour in CIELAB of 1976, as this reader sees it.
    fn lab(self, colour: Colour) -> Vector {
        let white = apply(&XYZ_OF_RGB, [1.0; 3]);
        let seen = self.sees(colour);
        let [x, y, z] = [0, 1, 2].map(|i| {
            let ratio = (seen[i] / white[i]).max(0.0);
            if ratio > 216.0 / 24389.0 {
                ratio.cbrt()
            } else {
                (24389.0 / 27.0 * ratio + 16.0) / 116.0
            }
        });
        [116.0 * y - 16.0, 500.0 * (x - y), 200.0 * (y - z)]
    }

    fn distance(self, one: Colour, two: Colour) -> f64 {
        let (one, two) = (self.lab(one), self.lab(two));
        (0..3).map(|i| (one[i] - two[i]).powi(2)).sum::<f64>().sqrt()
    }
}

/// All readers agree on white and on greys; to a red-blind one red is dark, and takes after green, as is known.
#[test]
fn readers() {
    let (grey, red, green) = (Colour::of(0x777777), Colour::of(0xff0000), Colour::of(0x5d5d00));
    for reader in READERS {
        assert!(reader.lab(WHITE).iter().zip([100.0, 0.0, 0.0]).all(|(part, white)| (part - white).abs() < 0.2));
        assert!(reader.lab(grey)[1].abs() < 0.2 && reader.lab(grey)[2].abs() < 0.2);
    }
    for red_blind in [READERS[1], READERS[4]] {
        assert!(red_blind.lab(red)[0] < READERS[0].lab(red)[0] - 5.0);
        assert!(red_blind.distance(red, green) < READERS[0].distance(red, green) / 2.0);
    }
}

/// The bounds: two steps of CIELAB can just be told apart, so at 14 nobody need look twice.
#[test]
fn fills_stay_apart() {
    let mut colours = PALETTE.to_vec();
    colours.extend([WHITE, MIXED]);
    for reader in READERS {
        let bound = if matches!(reader, Reader::Full) { 25.0 } else { 14.0 };
        for (i, &one) in colours.iter().enumerate() {
            for &two in &colours[..i] {
                let distance = reader.distance(one, two);
                assert!(distance >= bound, "{one} and {two} are {distance:.1} apart for {reader:?}");
            }
        }
    }
}

#[test]
fn labels_can_be_read() {
    for fill in PALETTE.into_iter().chain([WHITE, MIXED, HATCH]) {
        let contrast = fill.contrast(fill.label());
        assert!(contrast >= 4.5, "the label on {fill} has contrast {contrast:.2}");
    }
    for (paper, text) in [(PAPER, DARK), (PAPER, MUTED), (WHITE, MUTED)] {
        assert!(paper.contrast(text) >= 4.5, "{text} on {paper}");
    }
    assert!((WHITE.contrast(Colour::of(0)) - 21.0).abs() < 1e-9);
}

#[test]
fn own_fills() {
    let fills = Fills::of_raster(4, &[5, 5, 0, 0, 5, 5, 0, 9, 9, 0, 9, 9, 0, 0, 9, 9]);
    assert_eq!((fills.fill(5), fills.fill(9)), (PALETTE[5], PALETTE[9]));
    let apart = Fills::of_raster(4, &[3, 0, 13, 0, 0, 0, 0, 0, 23, 0, 33, 0, 0, 0, 0, 0]);
    assert_eq!([3, 13, 23, 33].map(|account| apart.fill(account)), [3, 4, 5, 6].map(|fill| PALETTE[fill]));
}

/// Whether no two accounts that touch have the same fill.
fn apart(side: usize, raster: &[u8]) -> bool {
    let (fills, borders) = (Fills::of_raster(side, raster), Borders::of_raster(side, raster));
    let clash = |one: u8, two: u8| borders.between(one.into(), two.into()) > 0 && fills.fill(one) == fills.fill(two);
    let apart = !(1..=63).any(|one| (1..one).any(|two| clash(one, two)));
    assert_eq!(apart, !fills.touching);
    apart
}

/// Twelve accounts and ten fills: 22 shares one, but not with 2 or 12, which it touches.
#[test]
fn touching_accounts() {
    let raster = [1, 3, 4, 5, 6, 7, 8, 9, 10, 0, 0, 12, 0, 0, 2, 22];
    let fills = Fills::of_raster(4, &raster);
    let taken: Vec<Colour> = (1..=10).filter(|&account| account != 2).map(|account| fills.fill(account)).collect();
    assert!(taken.contains(&fills.fill(22)));
    assert!(![2, 12].map(|account| fills.fill(account)).contains(&fills.fill(22)));
    assert!(apart(4, &raster));
}

/// An account that surrounds the islands of ten others has its own fill, and none of them has it.
#[test]
fn islands() {
    for around in [11, 15, 63] {
        let mut raster = [around; 256];
        (1..=10).for_each(|island| raster[usize::from(island % 4 * 4 + island / 4 * 64 + 17)] = island);
        let fills = Fills::of_raster(16, &raster);
        assert_eq!(fills.fill(around), PALETTE[usize::from(around % 10)]);
        assert!(apart(16, &raster));
    }
}

/// All 63 accounts on one bed, where each touches at most eight: those that touch have different fills.
#[test]
fn all_accounts() {
    let squares: Vec<u8> = (0..1024).map(|at| (at / 128 * 8 + at % 32 / 4) as u8).collect();
    assert!(apart(32, &squares));
    let turn = |account: u8| if account == 63 { 63 } else { (u32::from(account) * 10 % 63) as u8 };
    let turned: Vec<u8> = squares.into_iter().map(turn).collect();
    assert!(apart(32, &turned));
}

#[test]
fn ten_touching_accounts_have_ten_fills() {
    let raster: Vec<u8> =
        (0..64).map(|at| [10, 20, 30, 40, 50, 60, 1, 11, 21, 31][(at * 7 + at / 8 * 3) % 10]).collect();
    let fills = Fills::of_raster(8, &raster);
    for (at, &account) in raster.iter().enumerate().filter(|(at, _)| at % 8 != 7) {
        assert_ne!(fills.fill(account), fills.fill(raster[at + 1]));
    }
}

/// More accounts touch than there are fills: every account still has one.
#[test]
fn crowded() {
    let raster: Vec<u8> = (0..256).map(|at| (at % 63 + 1) as u8).collect();
    let fills = Fills::of_raster(16, &raster);
    assert!((1..=255).all(|account| PALETTE.contains(&fills.fill(account))));
    let noise: Vec<u8> = (0..4096u32).map(|at| (at * at / 7 % 61 + at % 3) as u8).collect();
    assert!(!apart(64, &noise));
}

#[test]
fn one_pixel() {
    assert_eq!(Fills::of_raster(1, &[21]).fill(21), PALETTE[1]);
}
