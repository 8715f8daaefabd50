#!/usr/bin/env python3
"""Counts what of crates/*/src reads like an older Rattle, point by point (docs/DESIGN-PASS.md).

usage: tools/places.py [COMMIT]                 a table: rule, what it counts, places; without COMMIT the files as they are on disk
       tools/places.py [COMMIT] --list POINT    each place of a point (3) or a rule (3a) as crate/file:line, and what stands there

A place is a line of a file below src/; where rules of one point meet in a line the point counts it once. Rules go by text alone,
with comments and strings taken out. TWINS and HAND name what no pattern shows; at the commit with which the page begins each of
these names must be there, and later one that is gone is a place that is gone.
"""

import collections
import io
import os
import re
import subprocess
import sys
import tarfile

TOP = os.path.dirname(os.path.dirname(os.path.abspath(__file__)))
PAGE = "docs/DESIGN-PASS.md"

FLAGS = "on|indexed|ranged|hascumulative|haslast|reliable|held|forwarding|allocated|some|fits|ok|read"
CODES = r"(?:\w+_)?code(?:_\w+)?|lacking|refusal|marked|formed|flag|order_number|held_number|prefix_number"
VALUES = "relay_size|relay_alloc|relay_prefix_sum"
OWN = "Field|Pair|Number|Place|Found"
WORDS = set("as break const continue else enum extern false fn for if impl in let loop match mod mut pub ref return self Self struct true unsafe use while".split())

# Functions and types that differ in a type, a size, a constant or a name; a place is each member of a group that has another.
TWINS = """
ack_queue::position out_list::position fragments::find table::off_slot table::on_slot
ack_queue::remove_at out_list::remove_at fragments::remove
ack_queue::add_in_reliable_packet out_list::add_out_reliable_packet contiguous::push fragments::push bundles::push_one
ack_queue::ack_in_singles out_list::ack_singles
out_list::insert_at waiting::insert_at
out_list::place_of waiting::place_of
out_list::holds waiting::holds bundles::holds fragments::holds fragments::holds_one
waiting::drop_front contiguous::left_of bundles::lengths_after bundles::handles_after
contiguous::append contiguous::handles_of bundles::push_list bundles::write_front fragments::into_bundle
bundles::lengths_zero bundles::handles_zero waiting::unused_are_none group_test::places_zero group_test::places_good
out_list::OutList::new ack_queue::AckQueue::new waiting::Waiting::new contiguous::Work::new bundles::Bundles::new fragments::Groups::new
tally::refusal send::front written::front_code
waiting::well_formed_buffer waiting::well_formed_queue
waiting::rises waiting::is_consecutive
out_test::words_good out_test::times_good
out_test::words_at out_test::times_at ack_queue::number_at
out_list::passes ack_queue::not_before
rules::acked forwarded::forwarded_acks
records::reliable_code off_records::reliable_off_code
records::reliable_in off_records::reliable_off
fields::with_ack held::added batches::put
fields::from_pkt fields::from_lrs fields::from_cum fields::from_seq
fields::from_rng fields::from_idx
fields::from_rel fields::from_on reading::pop_on reading::pop_off
reading::from_prefix reading::from_address reading::from_time
reading::in_line reading::pig_line
reading::read_pop reading::read_pig reading::pop_index
channels::placed handout::spot_of forward::out_placed delivery::aimed
channels::Place handout::Spot forward::Timed delivery::Aim
calls::Delivered calls::Found calls::Popped calls::Sent calls::Resent calls::Done lending::Arrived renewal::Numbered
calls::Held calls::Prefix
placing::Inserted placing::Placed reorder::Grouping reorder::Reordered group_rule::Added
out_list::OutList ack_queue::AckQueue waiting::Waiting contiguous::Work fragments::Groups calls::Batch calls::Handles calls::Names
words::Number words::Field words::Pair
seq::SeqAlloc lent::SeqAlloc
seq::Allocated lent::Moved
seq::alloc lent::alloc_at
seq::observe lent::observe_at records::observed
prefixes::reset_prefix_offset prefixes::transfer_prefix_offset_from_last_received
handed::hand_out handed::hand_out_short
handed::resend handed::resend_short
handed::list_of handed::rows_of
mixed_history::deliver mixed_history::forward_out mixed_history::find
mixed_history::held mixed_history::prefix
mixed_history::reset mixed_history::transfer
forwarded::forwarded_entry scenes::bare
print::digits print::number print::after
seq::relay_seq_add seq::relay_seq_sub
seq::relay_seq_compare seq::relay_seq_distance
door::relay_reset_prefix_offset door::relay_transfer_prefix_offset
walks::zero model::zero agreement::zero kept::zero order::zero histories::zero lists::none_used
table::flag draw::flag renewal::formed
sum::out sum::acks sum::words sum::groups sum::bundles sum::handles sum::waiting sum::offs sum::ons
scenes::ack ack_scenes::ack
scenes::acks ack_scenes::acks
scenes::ack_to ack_scenes::ack_to
scenes::sends ack_scenes::receive_all
scenes::forwards ack_scenes::received
scenes::show scenes::show_whole ack_scenes::show arrival_scenes::show_waiting group_scenes::show_groups
arrival_scenes::bares group_scenes::bares
arrival_scenes::bare group_scenes::bare
arrival_scenes::part group_scenes::part
arrival_scenes::parts group_scenes::parts
"""

# Other places that no pattern shows, by rule.
HAND = {
    "1d": "packet::if_flagged packet::Record::index_of packet::Record::version_of packet::Key::index_of channel::key_good writing::put_index",
    "4a": "taking::is_range table::on_slot out_test::times_at group_test::places_zero ack_queue::number_at",
    "4e": "seq::order_number marks::marked marks::after_none table::flag draw::flag renewal::formed lent::alloc_at lent::observe_at "
    "records::observed sent::moved_on batches::batch_of contiguous::work_of contiguous::left_of fragments::into_bundle packet::packet "
    "table::keys_of channel::off_view channel::on_view channels::off_view channels::on_view channels::off_answer sent::answer "
    "tally::answered reading::in_line reading::pig_line reading::key_of crossing::popped_number crossing::rows_number "
    "crossing::held_number crossing::prefix_number numbers::digit",
    "6b": "table::Keys",
    "7b": "group_rule::add_in_packet receive::deliver records::on_taken off_records::off_taken reorder::pop_in_reliable_bundles lines::step",
}

# Parameters that travel together: a name for each, or a type; a place is a function that takes them all.
TOGETHER = {
    "expected, buffer, queue": ["expected:u32", "buffer:Waiting", "queue:Waiting"],
    "groups, bundles": [":Groups", ":Bundles"],
    "time, timeout, give_up": ["time:u64", "timeout:u64", "(give_up|giveup|age):u64"],
    "address, index, version": ["address:u32", "index:u32", "version:u32"],
    "marks, handles": [r"(ms|marks):\[u32;32\]", r"(hs|handles):\[u32;32\]"],
    "acks, count": [r":\[u32;(8|64)\]", "(count|n):u32"],
    "channels, n": [r":\[(OffChannel|OnChannel|Fragments);\d\]", "n:(usize|u32)"],
    "keys, n": [r"keys:\[(u32|OnKey);\d\]", "n:usize"],
    "channel, record, time": [":(OnChannel|OffChannel)", "r:Record", "time:u64"],
    "out, at": [r"out:&mut\[u8\]", "at:usize"],
    "lent, at": [r"lent:&mut\[u32\]", "at:usize"],
    "work, at, n": [":Work", "at:usize", "n:usize"],
    "offset, left, time": [":Left", "time:u64", "offset:u32"],
    "group's parts": ["first:u32", "len:u32", "count:u32", "updated:u64"],
    "address, record, time": ["address:u32", "r:Record", "time:u64"],
}


def blank(text):
    """The text with comments, strings and characters blanked, of the same length."""
    what = re.compile(r'//[^\n]*|b?"(?:\\.|[^"\\])*"|b?\'(?:\\.[^\']*|[^\'\\\n])\'')
    return what.sub(lambda m: '""'.ljust(len(m[0])) if "\n" not in m[0] else re.sub(r"[^\n]", " ", m[0]), text)


def closing(t, i):
    """Behind the bracket that closes the one at i."""
    ends, deep = {"(": ")", "[": "]", "{": "}"}[t[i]], 0
    for k in range(i, len(t)):
        deep += (t[k] == t[i]) - (t[k] == ends)
        if not deep:
            return k + 1
    return len(t)


Fn = collections.namedtuple("Fn", "crate stem owner name public c params ret clauses body at file line")
Type = collections.namedtuple("Type", "crate stem name kind members file line derives")


class Source:
    """One file below src/, read into functions and types."""

    def __init__(self, path, text):
        self.path, self.crate = path, path.split("/")[1]
        self.file = "/".join(path.split("/")[1:])
        self.stem = os.path.basename(path)[:-3]
        self.t = blank(text)
        self.lines = text.split("\n")
        self.uses = {}
        for m in re.finditer(r"ghost use Rattle\.([\w.◌]+?)\.(?:\{([^}]*)\}|(\w+))(?: as (\w+))?;", self.t):
            where = m[1].replace(".specs", "")
            for name in (m[2] or "").split(","):
                self.uses[name.strip()] = where + "." + name.strip() if "std" not in where else name.strip()
            if m[4]:
                self.uses[m[4]] = where + "." + m[3]
        owners = []
        for m in re.finditer(r"^impl\b[^{;]*?(\w+)(?:<[^{]*>)?\s*\{", self.t, re.M):
            owners.append((m.start(), closing(self.t, m.end() - 1), m[1]))
        self.fns = [self.fn(m, owners) for m in re.finditer(r"((?:pub\s+)?)((?:extern\s+\"\"\s*)?)\bfn\s+(\w+)", self.t)]
        self.types = []
        for m in re.finditer(r"\b(struct|enum)\s+(\w+)[^;{(]*([{(])", self.t):
            inside = self.t[m.end() : closing(self.t, m.end() - 1) - 1]
            derives = re.findall(r"derive\(([^)]*)\)", self.t[: m.start()][-200:])
            self.types.append(Type(self.crate, self.stem, m[2], m[1], inside, self.file, self.line(m.start()), derives[-1:]))

    def line(self, at):
        return self.t.count("\n", 0, at) + 1

    def fn(self, m, owners):
        t, i = self.t, m.end()
        if t[i] == "<":
            i = t.index("(", i)
        end = closing(t, i)
        params = []
        for p in re.split(r",(?![^\[<(]*[\]>)])", t[i + 1 : end - 1]):
            name, _, kind = re.sub(r"\s+", "", p).partition(":")
            if name:
                params.append((name, kind))
        ret = re.match(r"\s*->\s*([^\n{]+)", t[end:])
        i, clauses = end + (ret.end() if ret else 0), []
        while m2 := re.match(r"\s*(requires|ensures)\b\*?[^{]*\{", t[i:]):
            stop = closing(t, i + m2.end() - 1)
            clauses.append((m2[1], " ".join(t[i + m2.end() : stop - 1].split()), self.line(i + m2.start(1))))
            i = stop
        start = t.find("{", i)
        body = t[start : closing(t, start)] if start >= 0 else ""
        owner = next((o for a, b, o in owners if a < m.start() < b), "")
        c = bool(m[2]) or "no_mangle" in t[max(0, m.start() - 40) : m.start()]
        return Fn(self.crate, self.stem, owner, m[3], bool(m[1]), c, params, ret[1].strip() if ret else "", clauses, body, start, self, self.line(m.start(3)))


def read(commit):
    """Every file below a crate's src/ and proofs/ and specs/, of the commit or on disk: {path: text}."""
    wanted = re.compile(r"crates/\w+/(src|specs|proofs)/.*\.(rt|antt)")
    if commit:
        packed = subprocess.run(["git", "archive", commit, "crates"], cwd=TOP, capture_output=True, check=True).stdout
        with tarfile.open(fileobj=io.BytesIO(packed)) as tar:
            return {m.name: tar.extractfile(m).read().decode() for m in tar if m.isfile() and wanted.fullmatch(m.name)}
    found = {}
    for folder, dirs, files in os.walk(os.path.join(TOP, "crates")):
        dirs[:] = sorted(d for d in dirs if d != "out" or "proofs" in folder)
        for name in sorted(files):
            path = os.path.relpath(os.path.join(folder, name), TOP)
            if wanted.fullmatch(path):
                with open(os.path.join(TOP, path), encoding="utf-8") as file:
                    found[path] = file.read()
    return found


RULES = {}


def rule(name, what):
    def keep(f):
        RULES[name] = (what, f)
        return f

    return keep


class Tree:
    def __init__(self, commit):
        self.texts = read(commit)
        self.sources = [Source(p, t) for p, t in sorted(self.texts.items()) if "/src/" in p]
        self.fns = [f for s in self.sources for f in s.fns]
        self.types = [t for s in self.sources for t in s.types]
        self.named = collections.defaultdict(list)
        for x in self.fns + self.types:
            for where in {x.crate, x.stem}:
                for name in {x.name, (getattr(x, "owner", "") + "::" + x.name).lstrip(":")}:
                    self.named[where + "::" + name].append(x)
        self.lacking = []

    def hand(self, names):
        for name in names.split():
            if name not in self.named:
                self.lacking.append(name)
            yield from self.named.get(name, [])


def spot(x):
    return (x.file.file if isinstance(x, Fn) else x.file, x.line)


def inside(f, pattern):
    """Where the pattern stands in a function's body."""
    for m in re.finditer(pattern, f.body):
        yield f.file.file, f.file.line(f.at + m.start())


def each(tree, pattern, keep=lambda f: True):
    for f in tree.fns:
        if keep(f):
            yield from inside(f, pattern)


# ---- 1: Option, Result, enums

@rule("1a", "own enums in which one case has a value and the others none")
def _(tree):
    for t in tree.types:
        if t.kind == "enum":
            cases = [c for c in re.split(r",(?![^(]*\))", t.members) if c.strip()]
            if len(cases) > 1 and sum("(" in c or "{" in c for c in cases) == 1:
                yield spot(t)


@rule("1b", "fields that flag or number the value beside them")
def _(tree):
    for t in tree.types:
        if t.kind == "struct":
            for k, member in enumerate(t.members.split("\n")):
                flag = rf"\b(?:{FLAGS}|code|kind|new" + ("|number" if "table: Table" in t.members else "") + r"): (?:u32|bool|Kind)\b"
                if re.search(flag, member):
                    yield t.file, t.line + k


@rule("1c", "functions that answer a number for a refusal, a kind or a flag")
def _(tree):
    return (spot(f) for f in tree.fns if f.ret in ("u32", "u64") and re.fullmatch(CODES, f.name))


@rule("1d", "functions that answer the count, or 0, for none, or take 0 for none")
def _(tree):
    none = r"\b(slot_of|place_on|place_off|Words\.taken|Spec\.front)\b"
    yield from (spot(f) for f in tree.fns if f.ret in ("u32", "usize") and any(re.search(none, c[1]) for c in f.clauses))
    yield from map(spot, tree.hand(HAND["1d"]))


@rule("1e", "parameters that are a flag or a refusal as a number")
def _(tree):
    for f in tree.fns:
        if any(re.fullmatch(rf"{FLAGS}|code|flag|f", n) and k == "u32" for n, k in f.params):
            yield spot(f)


@rule("1f", "refusals and grants written as numbers, or compared with one")
def _(tree):
    yield from each(tree, r"\b\w*code\w* (?:==|!=) \d+|\bcode: (?:\d+|\w+\.code)\b|\bnumber: \d+,\s*\}|\b(?:stopped|unsent|refused|granted)\([^()]*\b\d+\)|\bILLEGAL\b")
    yield from each(tree, r"(?m)\breturn 1?\d;|^\s+0$", lambda f: re.fullmatch(CODES, f.name) and f.name != "flag" and f.ret == "u32")


@rule("1g", "flags tested as numbers")
def _(tree):
    return each(tree, rf"\b(?:{FLAGS}|cumulative|refused|mark|m|flag) (?:==|!=) [01]\b|\bis_flag\(|\b(?:{FLAGS}): [01]\b")


@rule("1h", "matches on an enum of 1a that hand its cases on (where `?`, `map` or `if let` stand)")
def _(tree):
    for f in tree.fns:
        for m in re.finditer(r"\bmatch [^{]*\{", f.body):
            if re.search(rf"\b(?:{OWN})::\w+(?:\([^)]*\))? =>", f.body[m.end() : closing(f.body, m.end() - 1)]):
                yield f.file.file, f.file.line(f.at + m.start())


@rule("1i", "exported calls: a refusal, none or a flag crosses to C as a number")
def _(tree):
    return (spot(f) for f in tree.fns if f.c and f.ret in ("u32", "u64") and not re.fullmatch(VALUES, f.name))


# ---- 2: twins

def shape(f):
    """The function with its names numbered in their order, and its numbers alike."""
    names, out = {}, []
    for w in re.findall(r"[A-Za-z_]\w*|\d\w*|\S", " ".join(k for _, k in f.params) + " -> " + f.ret + f.body):
        if re.match(r"\d", w):
            w = "N"
        elif re.match(r"[A-Za-z_]", w) and w not in WORDS and w not in ("u32", "u64", "usize", "bool"):
            w = names.setdefault(w, f"x{len(names)}")
        out.append(w)
    return " ".join(out), len(out)


def sided(name):
    """A name without its word for on or off, and that word."""
    parts = re.findall(r"[A-Z][a-z]+|[a-z0-9]+|[A-Z]+", name)
    kept = tuple("s" if p.lower() in ("ons", "offs") else "" if p.lower() in ("on", "off") else p.lower() for p in parts)
    side = [p.lower()[:2] for p in parts if p.lower() in ("on", "off", "ons", "offs")]
    return kept, side[0] if side else ""


@rule("2a", "functions of one shape: alike but for names, numbers and types")
def _(tree):
    groups = collections.defaultdict(list)
    for f in tree.fns:
        text, length = shape(f)
        if length >= 30 and not f.c and not any(k.startswith("&mutW") for _, k in f.params):
            groups[text].append(f)
    return (spot(f) for g in groups.values() if len(g) > 1 for f in g)


@rule("2b", "functions and types that stand once for on- and once for off-channels, by name")
def _(tree):
    groups = collections.defaultdict(list)
    for x in tree.fns + tree.types:
        kept, side = sided(x.name)
        if side and x.crate not in ("fields", "reading"):
            groups[kept + (isinstance(x, Fn),)].append((side, x))
    return (spot(x) for g in groups.values() if len({side for side, _ in g}) > 1 for _, x in g)


@rule("2c", "functions and types of a group in TWINS")
def _(tree):
    for group in TWINS.strip().split("\n"):
        found = list(tree.hand(group))
        if len({spot(x) for x in found}) > 1:
            yield from map(spot, found)


@rule("2d", "branches that say for on-channels what the next says for off-channels")
def _(tree):
    return each(tree, r"\bif \w+\.(?:on == 1|is_on\(\)) \{", lambda f: "else" in f.body or f.body.count("return") > 1)


@rule("2e", "functions that only call the one of their name in another crate")
def _(tree):
    return (spot(f) for f in tree.fns if re.fullmatch(rf"\{{\s*\w+::{f.name}\([\w, ]*\)\s*\}}", f.body))


# ---- 3: loops

def loops(f):
    for m in re.finditer(r"\b(while|for|loop)\b([^{;]*)\{", f.body):
        yield m[1], m[2], f.body[m.end() : closing(f.body, m.end() - 1)], (f.file.file, f.file.line(f.at + m.start()))


def steps(head, body):
    return any(re.search(rf"\b{v} (?:[+-]=|= {v} [+-])", body) for v in set(re.findall(r"(?<!\.)\b[a-z]\w*", head)))


@rule("3a", "`while` loops that step an index by hand")
def _(tree):
    return (at for f in tree.fns for kind, head, body, at in loops(f) if kind == "while" and steps(head, body))


@rule("3b", "`for i in 0..n` that only indexes")
def _(tree):
    for f in tree.fns:
        for kind, head, body, at in loops(f):
            m = re.match(r"\s*(\w+) in \S*\.\.", head)
            if kind == "for" and m and re.search(rf"\[[^\]]*\b{m[1]}\b[^\]]*\]", body):
                yield at
    yield from each(tree, r"\.\.[^()]*\)(?:\.\w+\(\))*\.(?:all|any|map|filter|position|fold|for_each)\(\|")


@rule("3c", "loops written out: one array at three literal indices or more")
def _(tree):
    for f in tree.fns:
        hits = collections.defaultdict(set)
        for m in re.finditer(r"\b(\w+)\[(\d+)\]", f.body):
            hits[m[1]].add(m[2])
        if any(len(h) > 2 for h in hits.values()):
            yield spot(f)


@rule("3d", "other `while` and `loop`: what is left is moved on by hand")
def _(tree):
    return (at for f in tree.fns for kind, head, body, at in loops(f) if kind == "loop" or kind == "while" and not steps(head, body))


# ---- 4: derives, From, TryFrom, Display

@rule("4a", "equality with another value or with zero, field by field")
def _(tree):
    for f in tree.fns:
        if len(re.findall(r"[\w.]+ (?:==|!=) 0\b", f.body)) > 2:
            yield spot(f)
    yield from map(spot, tree.hand(HAND["4a"]))


@rule("4b", "an own order: its type, and functions that take its three cases apart")
def _(tree):
    yield from (spot(t) for t in tree.types if t.name == "Order")
    yield from (spot(f) for f in tree.fns if "Order::" in f.body)


def literals(f):
    for m in re.finditer(r"\b([A-Z]\w+) \{\s*\w+\b[:,]", f.body):
        at = f.body.index("{", m.start())
        inner = f.body[at + 1 : closing(f.body, at) - 1]
        yield re.findall(r"(\w+): ([^,{]+?)\s*(?:,|$)", inner), inner.count(","), (f.file.file, f.file.line(f.at + m.start()))


@rule("4c", "zero values written out (`Default`)")
def _(tree):
    zero = re.compile(r"0|false|\[0; \d+\]|\w+::(?:none|new)\((?:0, )*0?\)|none|\[none; \d+\]")
    for f in tree.fns:
        for fields, commas, at in literals(f):
            if len(fields) > 1 and len(fields) >= commas and all(zero.fullmatch(v) and n != "code" for n, v in fields):
                yield at


@rule("4d", "three fields or more copied one by one from one value to another")
def _(tree):
    for f in tree.fns:
        for fields, _, at in literals(f):
            from_one = collections.Counter(v.split(".")[0] for _, v in fields if re.fullmatch(r"\w+\.\w+", v))
            if from_one and max(from_one.values()) > 2:
                yield at


@rule("4e", "conversions written by hand: functions of HAND, and a number made a `Seq` and taken out again")
def _(tree):
    yield from map(spot, tree.hand(HAND["4e"]))
    yield from each(tree, r"\bSeq\(\w", lambda f: f.crate not in ("numbers",) and not f.owner == "Seq")


@rule("4f", "printing written by hand")
def _(tree):
    for f in tree.fns:
        names = [n for n, _ in f.params]
        if f.params and re.match(r"&mut(W|\[u8\])", f.params[0][1]) and "step" not in names and f.name != "call":
            if len(names) > 1 and (f.crate in ("writing", "print") or f.name.startswith("show") or f.name in ("number", "order", "list_of", "rows_of")):
                yield spot(f)


@rule("4g", "a table of numbers as a ladder of ifs")
def _(tree):
    return (spot(f) for f in tree.fns if len(re.findall(r"if \w+ == \d+ \{\s*return \d+;", f.body)) > 2)


# ---- 5: structs with methods, ghost fields, invariants

def facts(tree):
    found = collections.defaultdict(list)
    for f in tree.fns:
        mine = {n for n, _ in f.params} | {"self", "result"}
        for kind, text, line in f.clauses:
            for part in re.split(r" × |, ", text):
                part = part.strip()
                while part.startswith("(") and closing(part, 0) == len(part):
                    part = part[1:-1]
                if part.startswith("result ≡") or kind == "ensures" and "≡" in part:
                    continue
                words = re.sub(r"(?<![\w.])([A-Za-z_][\w]*)", lambda m: "_" if m[1] in mine else f.file.uses.get(m[1], m[1]), part)
                found[re.sub(r"\.(old|now|new)\b", "", words)].append((f, line))
    return {k: v for k, v in found.items() if len({id(f) for f, _ in v}) > 2}


@rule("5a", "clauses that state a fact which three functions or more state")
def _(tree):
    return ((f.file.file, line) for at in facts(tree).values() for f, line in at)


@rule("5b", "functions that take parameters of a group in TOGETHER (groups that three functions take)")
def _(tree):
    for group in TOGETHER.values():
        found = [f for f in tree.fns if all(any(re.fullmatch((r"\w+" if w.startswith(":") else "") + w, n + ":" + k) for n, k in f.params) for w in group)]
        if len(found) > 2:
            yield from map(spot, found)


# ---- 6: slices, Vec, maps

@rule("6a", "structs with an array and a length or count beside it")
def _(tree):
    for t in tree.types:
        if re.search(r"\w: \[[^\]]+; \d+\]", t.members) and re.search(r"\b(?:len|count|total|\w+count): u32", t.members):
            yield spot(t)


@rule("6b", "parallel arrays, in a struct or as parameters")
def _(tree):
    for t in tree.types:
        sizes = re.findall(r"\w: \[u32; (\d+)\]", t.members)
        if len(sizes) > 1:
            yield spot(t)
    for f in tree.fns:
        if len([k for _, k in f.params if k == "[u32;32]"]) > 1:
            yield spot(f)
    yield from map(spot, tree.hand(HAND["6b"]))


@rule("6c", "an array and its length as two parameters")
def _(tree):
    for f in tree.fns:
        if any(re.match(r"\[\w+;\d+\]", k) for _, k in f.params) and any(n in ("n", "count", "len", "total") and k in ("u32", "usize") for n, k in f.params):
            yield spot(f)


@rule("6d", "lists searched by hand")
def _(tree):
    for f in tree.fns:
        for kind, _, body, _ in loops(f):
            if re.search(r"\breturn\b", body) and re.search(r"\[.*[a-z]", body) and kind != "loop" or re.search(r"\b(\w+) = \1 \|", body):
                if not re.search(r"\] =[^=]", body):
                    yield spot(f)


@rule("6e", "a buffer and the place in it as two parameters")
def _(tree):
    return (spot(f) for f in tree.fns if any(re.match(r"&mut\[", k) for _, k in f.params) and ("at", "usize") in f.params)


# ---- 7: closures, impl Fn, dyn

@rule("7a", "ladders of ifs that each run another step")
def _(tree):
    for f in tree.fns:
        if len(set(re.findall(r"\bif [^{]*\{\s*(?:if [^{]*\{\s*)?return ([\w:]+)\([^;]*\);", f.body))) > 3:
            yield spot(f)


@rule("7b", "a number or a case that one function answers and the next takes for the step to run")
def _(tree):
    return map(spot, tree.hand(HAND["7b"]))


@rule("7c", "tables of functions")
def _(tree):
    return each(tree, r"\[(?:\w+::)*\w+ as fn\b|\bdyn \w+|: fn\(")


# ---- 8: proofs

def proofs(tree):
    lines = collections.Counter()
    count = collections.Counter()
    answers = collections.Counter()
    lemma = re.compile(r"^\s*pub \S+ :|^[a-z]\S* :", re.M)
    for path, text in tree.texts.items():
        kind = path.split("/")[2]
        lines[kind] += sum(bool(line.strip()) and not re.match(r"\s*(//|--)", line) for line in text.split("\n"))
        if kind == "proofs":
            name = path.split("/")[-1]
            kind = name if name in ("Answers.antt", "Invariants.antt", "Lib.antt") else "lemma files"
            count[kind] += 1
            lines[kind] += text.count("\n")
            if kind == "lemma files":
                count["lemmas"] += len(lemma.findall(text))
            if kind == "Answers.antt":
                found = re.findall(r"^[\w'+\-]+ (?:\w+ )*= (.*)$", text, re.M)
                count["answers"] += len(found)
                answers.update((path.split("/")[1], a) for a in found)
    said = sum(n for (_, a), n in answers.items() if re.fullmatch(r"search \w+", a))
    per = lines["proofs"] / max(1, lines["src"])
    yield f"lines of code, specs and proofs, without blank lines and comments: {lines['src']}, {lines['specs']}, {lines['proofs']}"
    yield f"lines of proof a line of code: {per:.2f}"
    yield f"answer files `Answers.antt`: {count['Answers.antt']}, with {count['answers']} answers, of which {said} only name a ruleset to search"
    yield f"invariant files `Invariants.antt`: {count['Invariants.antt']}; `Lib.antt`: {count['Lib.antt']}"
    yield f"files of lemmas: {count['lemma files']}, with {count['lemmas']} lemmas"
    yield f"answers that stand three times or more in one crate, to the letter: {sum(n for n in answers.values() if n > 2)}"


def main():
    words = [w for w in sys.argv[1:] if w != "--list"]
    wanted = words.pop() if "--list" in sys.argv else None
    tree = Tree(words[0] if words else None)
    found = {name: sorted(set(f(tree))) for name, (_, f) in RULES.items()}
    try:
        with open(os.path.join(TOP, PAGE), encoding="utf-8") as page:
            began = re.search(r"[0-9a-f]{40}", page.readline())
    except OSError:
        began = None
    if tree.lacking and words and began and began[0].startswith(words[0]):
        sys.exit("places: not at that commit: " + " ".join(tree.lacking))
    if wanted:
        texts = {s.file: s.lines for s in tree.sources}
        for file, line in sorted({at for name in RULES if name.startswith(wanted) for at in found[name]}):
            print(f"{file}:{line}: {texts[file][line - 1].strip()}")
        if wanted == "5a":
            for fact, at in sorted(facts(tree).items(), key=lambda x: -len(x[1])):
                print(f"{len(at):4} {fact}")
        return
    for point in sorted({name[0] for name in RULES}):
        rules = [name for name in RULES if name[0] == point]
        for name in rules:
            print(f"{name}  {len(found[name]):5}  {RULES[name][0]}")
        print(f"{point}   {len({at for name in rules for at in found[name]}):5}  places in all\n")
    for line in proofs(tree):
        print("8          " + line)


if __name__ == "__main__":
    main()
