// The triangles of a cube, worked out from the rules for every mask under every pair.

pub type Row = Vec<[u8; 3]>;

/// The pairs of connectedness, of solid and of hollow.
pub const PAIRS: [(u16, u16); 4] = [(18, 6), (26, 6), (6, 18), (6, 26)];

/// The faces, each walked against the clock as seen from inside.
const FACES: [[usize; 4]; 6] = [
    [0, 1, 3, 2],
    [4, 6, 7, 5],
    [0, 2, 6, 4],
    [1, 5, 7, 3],
    [0, 4, 5, 1],
    [2, 3, 7, 6],
];

/// The two voxels of each link.
const LINKS: [(usize, usize); 12] = [
    (0, 1),
    (2, 3),
    (4, 5),
    (6, 7),
    (0, 2),
    (1, 3),
    (4, 6),
    (5, 7),
    (0, 4),
    (1, 5),
    (2, 6),
    (3, 7),
];

fn link_between(a: usize, b: usize) -> usize {
    LINKS
        .iter()
        .position(|&ends| ends == (a.min(b), a.max(b)))
        .expect("neighbours")
}

fn solid(mask: usize, voxel: usize) -> bool {
    mask >> voxel & 1 == 1
}

/// A voxel in doubled coordinates.
fn voxel_point(voxel: usize) -> [i32; 3] {
    [0, 1, 2].map(|axis| 2 * (voxel >> axis & 1) as i32)
}

/// The middle of a link in doubled coordinates.
fn link_point(link: usize) -> [i32; 3] {
    let (a, b) = LINKS[link];
    let (a, b) = (voxel_point(a), voxel_point(b));
    [0, 1, 2].map(|axis| (a[axis] + b[axis]) / 2)
}

fn share_face(a: usize, b: usize) -> bool {
    let (p, q) = (link_point(a), link_point(b));
    (0..3).any(|axis| p[axis] == q[axis] && p[axis] != 1)
}

fn determinant(p: [i32; 3], q: [i32; 3], r: [i32; 3], w: [i32; 3]) -> i32 {
    let [a, b, c] = [q, r, w].map(|v| [0, 1, 2].map(|axis| v[axis] - p[axis]));
    a[0] * (b[1] * c[2] - b[2] * c[1]) - a[1] * (b[0] * c[2] - b[2] * c[0])
        + a[2] * (b[0] * c[1] - b[1] * c[0])
}

/// The edges of the loops where solid is 18-connected: where each corner goes to.
fn edges(mask: usize) -> [Option<usize>; 12] {
    let mut next = [None; 12];
    for face in FACES {
        let step = |i: usize| (face[i % 4], face[(i + 1) % 4]);
        for i in 0..4 {
            let (a, b) = step(i);
            if solid(mask, a) && !solid(mask, b) {
                let (c, d) = (i + 1..i + 4)
                    .map(step)
                    .find(|&(c, d)| !solid(mask, c) && solid(mask, d))
                    .expect("an end");
                next[link_between(a, b)] = Some(link_between(c, d));
            }
        }
    }
    next
}

/// The loops by their lowest links.
fn loops(next: &[Option<usize>; 12]) -> Vec<Vec<usize>> {
    let mut seen = [false; 12];
    let mut all = Vec::new();
    for start in 0..12 {
        if next[start].is_none() || seen[start] {
            continue;
        }
        let mut ring = Vec::new();
        let mut at = start;
        while !seen[at] {
            seen[at] = true;
            ring.push(at);
            at = next[at].expect("a loop");
        }
        all.push(ring);
    }
    all
}

/// A triangle with its lowest link first.
fn turned(p: usize, q: usize, r: usize) -> [u8; 3] {
    let [p, q, r] = [p, q, r].map(|link| link as u8);
    if p < q && p < r {
        [p, q, r]
    } else if q < r {
        [q, r, p]
    } else {
        [r, p, q]
    }
}

struct Cut<'a> {
    mask: usize,
    next: &'a [Option<usize>; 12],
}

impl Cut<'_> {
    fn allowed(&self, p: usize, q: usize, r: usize) -> bool {
        let sides = [(p, q), (q, r), (r, p)];
        let inner = |(a, b): (usize, usize)| self.next[a] == Some(b) || !share_face(a, b);
        let [x, y, z] = [p, q, r].map(link_point);
        let voxels = (0..8).filter(|&v| solid(self.mask, v)).map(voxel_point);
        let corners = (0..12).filter(|&l| self.next[l].is_some()).map(link_point);
        sides.into_iter().all(inner)
            && voxels.chain(corners).all(|w| determinant(x, y, z, w) <= 0)
    }

    fn split(&self, list: &[usize], row: &mut Row) {
        let last = list.len() - 1;
        if last < 2 {
            return;
        }
        let middle = (1..last)
            .find(|&m| list.len() == 3 || self.allowed(list[0], list[m], list[last]))
            .expect("an allowed corner");
        row.push(turned(list[0], list[middle], list[last]));
        self.split(&list[..=middle], row);
        self.split(&list[middle..], row);
    }
}

/// The tube between two loops of three: each edge with the other loop's corner on the third axis.
fn tube(a: &[usize], b: &[usize]) -> Row {
    let mut row = Row::new();
    for (of, other) in [(a, b), (b, a)] {
        for i in 0..3 {
            let (u, v) = (of[i], of[(i + 1) % 3]);
            let third = 3 - u / 4 - v / 4;
            let w = *other.iter().find(|&&w| w / 4 == third).expect("a corner");
            row.push(turned(u, v, w));
        }
    }
    row
}

fn row(mask: usize, with_tube: bool) -> Row {
    let next = edges(mask);
    let loops = loops(&next);
    if with_tube && [0x81, 0x42, 0x24, 0x18].contains(&mask) {
        return tube(&loops[0], &loops[1]);
    }
    let cut = Cut { mask, next: &next };
    let mut row = Row::new();
    for ring in &loops {
        cut.split(ring, &mut row);
    }
    row
}

/// The row of a mask under a pair, by its place in `PAIRS`.
fn row_of(mask: usize, pair: usize) -> Row {
    if pair < 2 {
        return row(mask, pair == 1);
    }
    let mut row = row(255 - mask, pair == 3);
    for triangle in &mut row {
        triangle.swap(1, 2);
    }
    row
}

/// The rows of a pair for every mask.
pub fn rows(pair: usize) -> Vec<Row> {
    (0..256).map(|mask| row_of(mask, pair)).collect()
}
