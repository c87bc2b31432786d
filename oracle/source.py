"""Cuts the functions that the oracle needs out of the Rust source, by name.

Nothing of the source is kept in this repository: the items below are found by
name when the oracle is built, and document 01's measures and document 02's
changes are put in by replacements of the shortest text that stands once in its
function.
"""

import hashlib
import os
import re

# SHA-256 of the files at commit ae6a4af810.
FILES = {
    "alt_paving": "b7d6eb9a48307bfff09cdda3cf4d8c8a086b85dcba97ac79eb2f1e4df77a5fd1",
    "two_d": "cb24105f9152198a6083adc0e31b59ae141eaadcadff66e1968c0f2911c9693e",
    "mesh": "9a8d35ed580cb1eec291b0fbfb237d3ef49342db762db8389607f347f3ceb01f",
}

# Items of each file, in the order in which they are written out. "A::b" is the
# method b of the type A. The two files' point_segment_distance differ and stay
# in modules of their own.
ITEMS = {
    "mesh": ["type Node", "enum Kind", "struct Cell", "Cell::quad4"],
    "two_d": [
        "struct Domain",
        "enum TwoDError",
        "Domain::new",
        "Domain::validate",
        "Domain::area",
        "Domain::segments",
        "Domain::contains",
        "Domain::distance_to_boundary",
        "Domain::nearest_segment",
        "fn point_in_polygon",
        "fn point_segment_distance",
        "struct Sizing",
    ],
    "alt_paving": [
        "const CORNER_TURN",
        "const CORNER_MARGIN",
        "const MIN_EDGE",
        "const FRONT_GAP",
        "const MAX_ROW_ROUNDS",
        "struct Options",
        "struct Paving",
        "Paving::coord",
        "Paving::push_point",
        "fn mesh_with_stats_options",
        "fn signed_area",
        "fn turn_at",
        "fn sample_loop",
        "fn sample",
        "struct Row",
        "fn front_length",
        "fn project",
        "fn segments_cross",
        "fn loop_is_simple",
        "fn point_segment_distance",
        "fn loop_distance",
        "fn quad_ok",
        "fn next_row",
        "fn commit_row",
        "fn close_small_fronts",
        "fn signed_quad_area",
        "fn best_six_closure",
        "fn point_in_loops",
        "fn distance_to_fronts",
        "fn fan_fill",
    ],
}

# Replacements: each old text must stand exactly once in its item.

# Document 01's four measures, as (measure, item, old, new). The third, the scaled
# Jacobian at a corner, is in
# quality.rs: the Rust's file of that name is not among the listed ones.
MEASURES = [
    # 1. In turn_at, sharp means dot < 0 or (3 x cross) x cross > dot x dot.
    (1, "fn turn_at", "-> f64", "-> bool"),
    (1, "fn turn_at", "cross.atan2(dot)", "crate::quality::sharp(cross, dot)"),
    (1, "fn sample_loop", ".abs() > CORNER_TURN", ""),
    # 2. In project, s is half the computed length of the two normals' sum; the
    # extra is given when cross > 0 and the same test holds.
    (2, "fn project", "cross.atan2(dot)", "cross > 0.0 && crate::quality::sharp(cross, dot)"),
    (2, "fn project", "std::f64::consts::PI - turn", "bis_len"),
    (2, "fn project", "(alpha / 2.0).sin().abs()", "alpha / 2.0"),
    (2, "fn project", "turn > CORNER_TURN", "turn"),
    # 4. Every corner value is finite and above the limit of the call's job; no angle is tested.
    (4, "fn quad_ok", "s <= 0.02", "s <= limit"),
    (4, "fn quad_ok", "quality::quad_angles(&cell, points)", "quality::no_angles()"),
]

# The corner limit, an option of the job and an argument down to the corner test, as (item, old, new).
CORNER_LIMIT = [
    ("struct Options", "pub seam: bool,", "pub seam: bool,\n    pub corner_limit: f64,"),
    ("fn quad_ok", "quad: [usize; 4]", "quad: [usize; 4], limit: f64"),
    ("fn next_row", "*q)", "*q, options.corner_limit)"),
    ("fn mesh_with_stats_options", "close_small_fronts(&mut paving", "close_small_fronts(&mut paving, options.corner_limit"),
    ("fn close_small_fronts", "paving: &mut Paving", "paving: &mut Paving, limit: f64"),
    ("fn close_small_fronts", "quad_ok(&paving.points, quad", "quad_ok(&paving.points, quad, limit"),
    ("fn close_small_fronts", "loops[li])", "loops[li], limit)"),
    ("fn best_six_closure", "ids: &[usize]", "ids: &[usize], limit: f64"),
    ("fn best_six_closure", "q1) ||", "q1, limit) ||"),
    ("fn best_six_closure", "q2) {", "q2, limit) {"),
    ("fn fan_fill", "domain: &Domain", "domain: &Domain, limit: f64"),
    ("fn fan_fill", "quad_ok(&paving.points, quad", "quad_ok(&paving.points, quad, limit"),
]

# Document 02's change 3: two points count as equal when both differences are below 0.001 x h, for the following point and for the
# closing pair, as (item, old, new). Each text begins at the limit of x and ends with that of y.
CLOSE_POINTS = [
    ("fn sample_loop", "1e-12 && (q[1] - p[1]).abs() < 1e-12", "0.001 * h && (q[1] - p[1]).abs() < 0.001 * h"),
    ("fn sample_loop", "1e-12 && (a[1] - b[1]).abs() < 1e-12", "0.001 * h && (a[1] - b[1]).abs() < 0.001 * h"),
]

# The two counts that the port adds, and where a run can stop, as (item, old, new).
# What each does is in limits.rs.
HOOKS = [
    ("fn mesh_with_stats_options", "Result<(Mesh, Stats), String>", "Result<Paving, String>"),
    ("fn mesh_with_stats_options", "let h = ", "limits::stop_after_checks()?;\n    let h = "),
    ("fn mesh_with_stats_options", "// Row loop",
     "if limits::only_sampling() { return Ok(paving); }\n    // Row loop"),
    ("fn mesh_with_stats_options", "let mut advanced",
     "limits::pass_begun();\n        let mut advanced"),
    ("fn mesh_with_stats_options", "close_small_fronts(",
     "limits::rows_stopped(&paving);\n    close_small_fronts("),
]

# The added limits, tested within the Rust in document 01's order, in the same form.
LIMITS = [
    ("fn mesh_with_stats_options", "if domain.outer.len()",
     "limits::options(sizing.size, options)?;\n    if domain.outer.len()"),
    ("fn mesh_with_stats_options", "if domain.area()",
     "limits::coordinates(domain)?;\n    if domain.area()"),
    ("fn mesh_with_stats_options", "commit_row(",
     "limits::room(&paving, row.new_points.len(), row.quads.len())?;\n                commit_row("),
    ("fn mesh_with_stats_options", "Ok(paving)\n}", "limits::room(&paving, 0, 0)?;\n    Ok(paving)\n}"),
    ("fn sample_loop", "let mut out =", "limits::planned(n, &parts)?;\n    let mut out ="),
    ("fn fan_fill", "let center =", "limits::room(paving, 1, n / 2)?;\n    let center ="),
]

# The ported path ends with this statement; the rest of the function is left out.
LAST_STATEMENT = "close_small_fronts(&mut paving);"

HEADS = {
    "mesh": "",
    "two_d": "",
    "alt_paving": (
        "use crate::limits;\n"
        "use crate::quality;\n"
        "use super::mesh::{Cell, Node};\n"
        "use super::two_d::{Domain, Sizing};\n\n"
        "/// Not cut: it calls a file that is not among the listed ones. A job with seam\n"
        "/// true is refused with number 3, so it is reached without the limits alone.\n"
        "fn seam_row(_: &Paving, _: usize, _: usize, _: &[usize], _: &[[f64; 2]], _: f64)"
        " -> Option<Row> {\n    panic!(\"seam_row is called\")\n}\n\n"
    ),
}


class Fault(Exception):
    """The source does not have what the oracle takes from it."""


def locate(folder, name):
    """The file of a module, in a checkout or in a folder of .txt copies."""
    for path in (f"src/{name}.rs", f"src/{name}.rs.txt", f"{name}.rs", f"{name}.rs.txt"):
        full = os.path.join(folder, path)
        if os.path.isfile(full):
            return full
    raise Fault(f"no {name}.rs or {name}.rs.txt under {folder}")


def read(folder, name):
    """The text of a module, and its SHA-256."""
    with open(locate(folder, name), "rb") as file:
        data = file.read()
    return data.decode(), hashlib.sha256(data).hexdigest()


def lines_of(lines, start):
    """The item that begins at a line: to its end by ';', or to the brace that
    closes it, which stands alone at the item's own indentation."""
    if lines[start].rstrip().endswith(";"):
        return lines[start:start + 1]
    indent = lines[start][: len(lines[start]) - len(lines[start].lstrip())]
    for end in range(start + 1, len(lines)):
        if lines[end] == indent + "}":
            return lines[start:end + 1]
    raise Fault(f"no end of {lines[start].strip()}")


def find(lines, pattern, what):
    places = [i for i, line in enumerate(lines) if re.match(pattern, line)]
    if len(places) != 1:
        raise Fault(f"{what} stands {len(places)} times, not once")
    return places[0]


def cut(lines, item):
    """The lines of one item, without comments, attributes, or serde's part."""
    if "::" in item:
        owner, method = item.split("::")
        block = lines_of(lines, find(lines, rf"impl {owner} \{{$", f"impl {owner}"))
        found = lines_of(block, find(block, rf"    (pub )?fn {method}\(", item))
    else:
        kind, name = item.split()
        found = lines_of(lines, find(lines, rf"(pub )?{kind} {name}\b", item))
    kept = []
    for line in found:
        if line.strip().startswith(("///", "#[")):
            continue
        line = re.sub(r"^( *)(fn|struct|const|type) ", r"\1pub \2 ", line)
        if item.startswith("struct"):
            line = re.sub(r"^    ([a-z_]+):", r"    pub \1:", line)
        kept.append(line)
    text = "\n".join(kept)
    if item == "fn mesh_with_stats_options":
        if text.count(LAST_STATEMENT) != 1:
            raise Fault(f"{item}: the closing stands {text.count(LAST_STATEMENT)} times")
        text = text.split(LAST_STATEMENT)[0] + LAST_STATEMENT
        text += "\n    Ok(paving)\n}"
    return text


def replaced(item, text, replacements):
    """The item with its replacements; each must match exactly once."""
    for where, old, new in replacements:
        if where != item:
            continue
        if text.count(old) != 1:
            raise Fault(f"{item}: {old!r} stands {text.count(old)} times, not once")
        text = text.replace(old, new)
    return text


DERIVES = {
    "enum Kind": "#[derive(Clone, Copy, Debug, PartialEq, Eq)]\n",
    "struct Cell": "#[derive(Clone, Debug, PartialEq, Eq)]\n",
    "enum TwoDError": "#[derive(Clone, Debug, PartialEq, Eq)]\n",
    "struct Domain": "#[derive(Clone, Debug, Default)]\n",
    "struct Sizing": "#[derive(Clone, Copy, Debug)]\n",
    "struct Options": "#[derive(Clone, Copy, Debug)]\n",
    "struct Paving": "#[derive(Clone, Debug)]\n",
}


def module(file, text, replacements):
    """One module of the generated file."""
    lines = text.split("\n")
    parts = []
    for item in ITEMS[file]:
        body = replaced(item, cut(lines, item), replacements)
        if "::" in item:
            body = f"impl {item.split('::')[0]} {{\n{body}\n}}"
        parts.append(DERIVES.get(item, "") + body)
    return f"pub mod {file} {{\n{HEADS[file]}" + "\n\n".join(parts) + "\n}\n"


def generate(folder, without=None):
    """The text of cut.rs, the files that differ, and the replacements made.

    A measure (1 or 2), the limit of close points ("close") or the added limits
    ("limits") can be left out, to show what they change."""
    replacements = [m[1:] for m in MEASURES if m[0] != without] + CORNER_LIMIT + HOOKS
    if without != "close":
        replacements += CLOSE_POINTS
    if without != "limits":
        replacements += LIMITS
    for item, old, _ in replacements:
        if item not in ITEMS["alt_paving"]:
            raise Fault(f"{item} is not cut, and {old!r} not replaced")
    out, differ = [], []
    for file in ("mesh", "two_d", "alt_paving"):
        text, digest = read(folder, file)
        if digest != FILES[file]:
            differ.append(f"{file}.rs: SHA-256 {digest}, recorded {FILES[file]}")
        here = replacements if file == "alt_paving" else []
        out.append(module(file, text, here))
    return "\n".join(out), differ, len(replacements)
