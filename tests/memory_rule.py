#!/usr/bin/env python3
"""Holds the code to a rule that no contract states: a fault of memory is only handed up. Nothing makes an `AllocError`, or a fault,
refusal or reply named `Memory`, but from one that a call below gave. So no function gives up with want of memory in place of an
answer, which its contract would let it do.

A word that ends in `Memory`, or `AllocError`, in a function's block is one of
  a pattern, a type, or a value that is compared;
  in `impl From<AllocError>`, or in an arm whose pattern names nothing but such words, or whose guard asks for one: handed up;
  in the `Err` arm of a `match`, the block of an `if let Err(..) =` or of `if CALL.is_err()`, the `else` of a `let Ok(..) =`, or
  the closure of `map_err`, each of a call that can fail only for memory: handed up.
All else makes it, and fails. A call can fail only for memory where all functions of that name in the repository give an
`AllocError` or a `Memory`, or where LIBRARY has the name.

Nor is a call made that no machine could meet. What `reserve`, `resize`, `with_capacity` and `vec!` are asked for is a sum of
  numbers, and constants with numbers, up to MOST_ASKED;
  calls of `len`, of `count` and of what ends in `_count`;
  the function's parameters, and names that `let` gives one of these.
What a caller hands to a parameter is not followed.
The last line is `N passed, M failed`, of the places that were looked at."""
import os
import re
import sys
import tempfile

import source

WORD = re.compile(r"\w*Memory|AllocError")
ONLY_MEMORY = {"AllocError", "Memory"}
# Calls of the libraries that fail for want of memory alone: growth, of a table too, whose 2^63 places no memory holds, and
# reading a record of text that is in memory.
LIBRARY = {"push", "push_shown", "reserve", "extend_from_slice", "insert", "read_byte_record"}
# What may be asked for in one call, in items.
MOST_ASKED = 1_000_000
# Where among the arguments the number of items stands.
GROWTHS = {"reserve": 0, "resize": 0, "with_capacity": -1}
# The last resort: places by (file, function) that are right and look like none of these.
ALLOWED = set()


class Text:
    """A file's tokens of code, with each bracket's partner and the bracket that each stands in."""

    def __init__(self, rows):
        self.rows = [it for it in rows if it.kind == "Code"]
        self.words = [it.text for it in self.rows]
        self.functions = source.functions(rows)
        self.partner, self.inside, opened = {}, [], []
        for at, word in enumerate(self.words):
            if word in "}])" and opened:
                self.partner[at] = opened.pop()
                self.partner[self.partner[at]] = at
            self.inside.append(opened[-1] if opened else None)
            if word in "{[(":
                opened.append(at)

    def is_literal(self, at):
        """Returns whether the brace there opens the fields of a struct, in a value or a pattern."""
        return self.words[at] == "{" and bool(re.fullmatch(r"[A-Z]\w*[a-z]\w*", self.words[at - 1]))

    def parts(self, opened, mark=","):
        """Returns what stands between the marks inside a bracket, each as (begin, end)."""
        end = self.partner[opened]
        cuts = [it for it in range(opened + 1, end) if self.words[it] == mark and self.inside[it] == opened]
        found = zip([opened, *cuts], [*cuts, end])
        return [(begin + 1, stop) for begin, stop in found if begin + 1 < stop]

    def back(self, at, stops):
        """Returns where the words begin that lead up to this place, back to one of these on the same level."""
        while at > 0 and self.words[at - 1] not in stops:
            at = self.partner.get(at - 1, at - 1) if self.words[at - 1] in "}])" else at - 1
        return at

    def error_of(self, it):
        """Returns the last type parameter of the Result that a function returns, or None."""
        head = [row.text for row in self.rows if it.start <= row.start < it.body]
        said = re.search(r"- > Result < (.*) >", " ".join(head).partition(" where ")[0])
        return said and re.split(r" , (?![^<(]*[>)])", said[1])[-1]

    def callee(self, end):
        """Returns the name of the call that ends before this place, or None."""
        if self.words[end - 1] != ")":
            return None
        at = self.partner[end - 1] - 1
        if self.words[at] == ">":
            while self.words[at] != "<":
                at -= 1
            at -= 3
        return self.words[at] if re.fullmatch(r"\w+", self.words[at]) else None


def gives_memory(text, begin, end, names):
    """Returns whether what stands there is a call that can fail only for memory, or a value of such calls."""
    if end - begin == 1:
        word = text.words[begin]
        for at in range(begin - 1, 0, -1):
            if text.words[at - 1 : at + 2] == ["let", word, "="]:
                stop = at
                while text.words[stop] != ";" or text.inside[stop] != text.inside[at]:
                    stop += 1
                calls = [text.words[it] for it in range(at, stop) if text.words[it + 1] == "("]
                return any(names.get(it) for it in calls) and all(names.get(it, True) for it in calls)
        return False
    return bool(names.get(text.callee(end)))


def is_inside_pattern(text, at):
    """Returns whether a pattern may go on behind what stands there."""
    if at == len(text.words):
        return False
    word, inside = text.words[at], text.inside[at]
    if word == ",":
        return inside is not None and (text.words[inside] == "(" or text.is_literal(inside))
    if word in "{}":
        return text.is_literal(at if word == "{" else text.partner[at])
    return word not in ("=", ";", "?")


def is_field(text, begin):
    """Returns whether the value, or the pattern, that begins there is a field's of a struct."""
    inside = text.inside[begin]
    return inside is not None and text.is_literal(inside) and text.words[begin - 3] in "{,"


def is_read(text, at):
    """Returns whether the word there is a type, a pattern, or a value that is compared."""
    words, begin = text.words, at
    while words[begin - 2 : begin] == [":", ":"]:
        begin -= 3
    before, after = words[begin - 1], words[at + 1]
    if after == ":" and words[at + 2] == ":" or before == "<" or after in ">" or words[begin - 2 : begin] == ["=", "="]:
        return True
    if before == ":" and not is_field(text, begin) or words[begin - 2 : begin] == ["-", ">"]:
        return True
    inside = text.inside[at]
    while inside is not None and words[inside] == "(":
        if words[inside - 2 : inside] == ["matches", "!"]:
            return True
        inside = text.inside[inside]
    # A pattern leads to => or, behind `let`, to =, with nothing but patterns and a guard between.
    to = at + 1
    while is_inside_pattern(text, to):
        to = text.partner[to] + 1 if words[to] in "([{" else to + 1
    if words[to : to + 1] != ["="]:
        return False
    return words[to + 1] == ">" or "let" in words[text.back(begin, ";{}") : begin] and words[to + 1] != "="


def names_memory_alone(pattern):
    """Returns whether a pattern, with its guard, is met for want of memory alone."""
    cut = pattern.index("if") if "if" in pattern else len(pattern)
    asked = [it.split() for it in " ".join(pattern[cut + 1 :]).split("| |")]
    named = [it.split() for it in " ".join(pattern[:cut]).split("|")]
    if all(any(map(WORD.fullmatch, it)) for it in named if it):
        return True
    return "!" not in pattern and all(any(map(WORD.fullmatch, it)) for it in asked)


def is_handed_up(text, at, function, names):
    """Returns whether what is made there is made only where a call below gave it."""
    words, inside = text.words, text.inside[at]
    while inside is not None and text.rows[inside].start >= function.body:
        before = inside - 1
        if words[inside] == "(" and words[before] == "map_err" and gives_memory(text, 0, before - 1, names):
            return True
        if words[inside] == "{":
            begin = text.back(inside, ";{}")
            head = words[begin:inside]
            if "match" in head and text.rows[inside].start > function.body:
                start = len(head) - 1 - head[::-1].index("match") + begin + 1
                arrow = arrow_before(text, inside, at)
                pattern = words[text.back(arrow, ("{", ",", "}")) : arrow] if arrow else []
                if pattern and names_memory_alone(pattern):
                    return True
                if pattern[:2] == ["Err", "("] and "if" not in pattern and gives_memory(text, start, inside, names):
                    return True
            elif head[-1:] == ["else"] and head[:3] == ["let", "Ok", "("]:
                equals = begin + head.index("=")
                if gives_memory(text, equals + 1, before, names):
                    return True
            elif "if" in head:
                start = len(head) - 1 - head[::-1].index("if")
                if head[start + 1 : start + 4] == ["let", "Err", "("]:
                    equals = begin + start + head[start:].index("=")
                    pattern = words[begin + start + 2 : equals]
                    if names_memory_alone(pattern) or gives_memory(text, equals + 1, inside, names):
                        return True
                elif all_failed(text, begin + start + 1, inside, names):
                    return True
        inside = text.inside[inside]
    head = [row.text for row in text.rows if function.start <= row.start < function.body]
    return function.by == "From" and function.name == "from" and any(it in ONLY_MEMORY for it in head)


def arrow_before(text, inside, at):
    """Returns where the arm's => stands in a match's block."""
    while text.inside[at] != inside:
        at = text.inside[at]
    while at > inside and text.words[at : at + 2] != ["=", ">"]:
        at = text.partner[at] if text.words[at] in "}])" and at in text.partner else at
        at -= 1
    return at if at > inside else None


def all_failed(text, begin, end, names):
    """Returns whether a condition is `CALL.is_err()`, or several joined by ||, of calls that can fail only for memory."""
    ends = [it for it in range(begin, end) if text.words[it : it + 2] == ["|", "|"] and text.inside[it] == text.inside[end]] + [end]
    for stop in ends:
        if text.words[stop - 4 : stop] != [".", "is_err", "(", ")"] or not gives_memory(text, 0, stop - 4, names):
            return False
    # (`!` turns the question, and under `&&` more than memory decides)
    joined = [text.words[it] for it in range(begin, end) if text.inside[it] == text.inside[end]]
    return not {"!", "&"} & {*joined}


def sizes_asked(text):
    """Returns what is asked for where lists grow, as (begin, end)."""
    found = []
    for at, word in enumerate(text.words[:-2]):
        if word in GROWTHS and text.words[at + 1] == "(" and text.words[at - 1] != "fn":
            found += text.parts(at + 1)[GROWTHS[word] :][:1]
        elif text.words[at : at + 3] == ["vec", "!", "["] and len(text.parts(at + 2, ";")) == 3:
            found.append(text.parts(at + 2, ";")[2])
    return found


def crate_of(file):
    """Returns the crate that a file of code is of."""
    found = re.search(r"crates/(\w+)/src/", file)
    return found[1] if found else ""


def constants_of(text):
    """Yields the constants of a file that are no arrays, each with the words of its value."""
    for at, word in enumerate(text.words):
        if word == "const" and text.words[at + 2] == ":" and "=" in text.words[at:]:
            equals = text.words.index("=", at)
            value = text.words[equals + 1 : text.words.index(";", equals)]
            if value[:1] != ["["]:
                yield text.words[at + 1], value


def names_seen(file, text, small):
    """Returns which of the small constants a file names: those of its own crate, and those that a `use` brings from another."""
    seen = {name for crate, name in small if crate == crate_of(file)}
    for at, word in enumerate(text.words):
        if word == "use":
            path = text.words[at + 1 : text.words.index(";", at)]
            seen |= {name for name in path[1:] if (path[0], name) in small}
    return seen


def small_constants(texts):
    """Returns for each file the names of constants that are numbers up to MOST_ASKED, or such a constant as another type."""
    values = {}
    for file, text in texts.items():
        for name, value in constants_of(text):
            values.setdefault((crate_of(file), name), []).append((file, value))
    numbers = {it for it, found in values.items() if all(len(value) == 1 and is_small_number(value[0]) for _, value in found)}
    seen = {file: names_seen(file, text, numbers) for file, text in texts.items()}
    casts = {it for it, found in values.items() if all(value[1:2] == ["as"] and value[0] in seen[file] for file, value in found)}
    return {file: names_seen(file, text, numbers | casts) for file, text in texts.items()}


def is_small_number(word):
    found = re.fullmatch(r"(\d[\d_]*?)_?([ui](\d+|size))?", word)
    return bool(found) and int(found[1].replace("_", "")) <= MOST_ASKED


def is_small(text, begin, end, function, constants):
    """Returns whether a size that is asked for is one that a machine can have."""
    cuts = [it for it in range(begin, end) if text.words[it] == "+" and text.inside[it] == text.inside[begin]]
    terms = [text.words[start + 1 : stop] for start, stop in zip([begin - 1, *cuts], [*cuts, end])]
    return all(is_small_term(text, begin, it, function, constants) for it in terms)


def is_small_term(text, at, words, function, constants):
    if words[-2:] == ["(", ")"]:
        return bool(re.fullmatch(r"len|count|\w+_count", words[-3])) and not {"MAX", "*", "<"} & {*words}
    word = words[-1] if words else ""
    if words[:5] == ["usize", ":", ":", "from", "("] and words[6:] == [")"]:
        return words[5] in constants
    if len(words) != 1:
        return words[-3:-1] == [":", ":"] and word in constants
    if is_small_number(word) or word in constants:
        return True
    head = [it.text for it in text.rows if function.start <= it.start < function.body]
    if any(head[it : it + 2] == [word, ":"] for it in range(len(head))):
        return True
    for it in range(at - 1, 0, -1):
        if text.rows[it].start < function.body:
            break
        if text.words[it : it + 2] == [word, "="] and text.words[it - 1] in ("let", "mut"):
            return is_small(text, it + 2, text.words.index(";", it), function, constants)
    return False


def innermost(text, row):
    inside = [it for it in text.functions if it.body < row.start < it.end]
    return min(inside, key=lambda it: it.end - it.body, default=None)


def makers(text, names):
    """Yields each place where a fault of memory stands in code, with its function and whether it may stand there."""
    for at, row in enumerate(text.rows):
        if not WORD.fullmatch(row.text):
            continue
        function, head = innermost(text, row), text.words[text.back(at, ";{}") : at]
        if function is None and not ({"const", "static"} & {*head} and "=" in head) or head[:1] == ["use"]:
            continue
        yield at, function, bool(function) and (is_read(text, at) or is_handed_up(text, at, function, names))


def growths(text, constants):
    """Yields each place where a list grows, with its function and whether it may ask for so much."""
    for begin, end in sizes_asked(text):
        function = innermost(text, text.rows[begin])
        if function:
            yield begin, function, is_small(text, begin, end, function, constants)


def fails_for_memory(texts):
    """Returns for names of functions whether what they fail for is memory alone."""
    errors = {}
    for text in texts:
        for it in text.functions:
            error = text.error_of(it)
            if error is not None:
                errors.setdefault(it.name, set()).add(error)
    names = {name: found <= ONLY_MEMORY for name, found in errors.items()}
    return names | {it: names.get(it, True) for it in LIBRARY}


def wrong_places(files):
    """Returns how many places were looked at, and those that are wrong, as (file, line, function, why, text)."""
    texts = {file: Text(rows or []) for file, rows in source.tokens(files).items()}
    names, constants = fails_for_memory(texts.values()), small_constants(texts)
    looked, wrong = 0, []
    for file, text in texts.items():
        rules = {"makes a fault of memory": makers(text, names), "asks for more than is sure to be small": growths(text, constants[file])}
        for why, places in rules.items():
            for at, function, is_right in places:
                looked += 1
                if not is_right:
                    name, said = function.name if function else "", " ".join(text.words[at - 4 : at + 2])
                    wrong.append((file, text.rows[at].line, name, why, said))
    return looked, wrong


BAD = """
fn cap(n: usize) -> Result<(), Memory> { if n > 300 { return Err(Memory); } Ok(()) }
fn give_up(x: u8) -> Result<u8, AllocError> { Err(AllocError) }
fn in_arm(x: Option<u8>) -> Result<u8, Fault> { match x { Some(n) => Ok(n), None => Err(Fault::Memory) } }
fn other_call(x: &[u8]) -> Result<u8, Fault> { match parse(x) { Ok(n) => Ok(n), Err(_) => Err(Fault::Memory) } }
fn in_else(x: Option<u8>) -> Result<u8, Fault> { let Some(n) = x else { return Err(Fault::Memory); }; Ok(n) }
fn of_option(x: Option<u8>) -> Result<u8, AllocError> { x.ok_or(AllocError) }
fn either(v: &mut Vec<u8>, n: usize) -> Result<(), Memory> { if n > 300 || v.reserve(n).is_err() { return Err(Memory); } Ok(()) }
fn both(v: &mut Vec<u8>, n: usize) -> Result<(), Memory> { if !v.reserve(n).is_err() { return Err(Memory); } Ok(()) }
fn mapped(x: &[u8]) -> Result<u8, Fault> { parse(x).map_err(|_| Fault::Memory) }
fn ok_arm(v: &mut Vec<u8>) -> Result<(), Memory> { match v.reserve(1) { Ok(()) => Err(Memory), Err(_) => Err(Memory) } }
fn guarded(v: &mut Vec<u8>, n: u8) -> Result<(), Fault> { match v.push(n) { Ok(()) => Ok(()), Err(_) if n == 0 => Err(Fault::Taken), _ => Err(Fault::Memory) } }
fn if_other(x: &[u8]) -> Result<(), Fault> { if let Err(_) = parse(x) { return Err(Fault::Memory); } Ok(()) }
fn answered(n: u64) -> Answer { if n == 7 { Answer::refused(Refusal::Memory) } else { Answer::done() } }
impl From<Other> for Fault { fn from(_e: Other) -> Fault { Fault::Memory } }
const FAULT: Fault = Fault::Memory;
fn other_cause(e: Cause) -> Reply { match e { Cause::Memory | Cause::Limit => Reply::Memory, Cause::Line => Reply::Line, } }
fn other_decision(d: Decision) -> Outcome { match d { Decision::Done => Outcome::Done, Decision::Full | Decision::Memory => Outcome::Memory, } }
fn inside(e: Result<u8, Cause>) -> Result<u8, Cause> { match e { Ok(n) => Ok(n), Err(Cause::Memory | Cause::Limit) => Err(Cause::Memory), Err(e) => Err(e), } }
fn if_either(e: Result<u8, Cause>) -> Result<u8, Cause> { if let Err(Cause::Memory | Cause::Limit) = e { return Err(Cause::Memory); } e }
fn asks_either(e: Error) -> Fault { match e { e if e.kind() == Kind::OutOfMemory || e.kind() == Kind::Other => Fault::Memory, _ => Fault::Taken, } }
fn asks_other(e: Error) -> Fault { match e { e if e.kind() != Kind::OutOfMemory => Fault::Memory, _ => Fault::Taken, } }
fn nested(place: Option<u64>) -> Answer { Answer { place: None, reply: Reply::Refused(Refusal::Memory) } }
fn field() -> Answer { Answer { reply: Refusal::Memory } }
fn field_in_arm(x: Option<u8>) -> Answer { match x { None => Answer { place: None, reply: Refusal::Memory }, Some(n) => Answer::done(n), } }
fn asks_for_all(v: &mut Vec<u8>) -> Result<(), AllocError> { v.reserve(usize::MAX)?; Ok(()) }
fn asks_for_much(v: &mut Vec<u8>) -> Result<(), AllocError> { v.reserve(1_000_001)?; Ok(()) }
fn asks_by_name(alloc: Global) -> Result<Vec<u8>, AllocError> { Vec::with_capacity(alloc, LARGE) }
fn asks_by_let(alloc: Global) -> Result<Vec<u8>, AllocError> { let count = u64::MAX as usize; Vec::with_capacity(alloc, count) }
fn asks_by_product(v: &mut Vec<u8>, n: usize) -> Result<(), AllocError> { v.resize(n * 1_000_000, 0)?; Ok(()) }
fn asks_by_macro(alloc: Global) -> Result<Vec<u8>, AllocError> { vec![in alloc; 0u8; 1 << 40] }
fn asks_by_cast(alloc: Global) -> Result<Vec<u8>, AllocError> { Vec::with_capacity(alloc, usize::from(LARGE)) }
fn asks_by_sum(v: &mut Vec<u8>, w: &[u8]) -> Result<(), AllocError> { v.reserve(w.len() + LARGE)?; Ok(()) }
"""
GOOD = """
use std::alloc::AllocError;
pub struct Memory;
pub enum Fault { Memory, Taken }
fn parse(x: &[u8]) -> Result<u8, Fault> { Err(Fault::Taken) }
fn grow(v: &mut Vec<u8>) -> Result<(), AllocError> { v.push(1)?; Ok(()) }
fn in_arm(v: &mut Vec<u8>) -> Result<(), Fault> { match grow(v) { Ok(()) => {} Err(_) => return Err(Fault::Memory), } Ok(()) }
fn bound(v: &mut Vec<u8>, b: bool) -> Result<(), Fault> { let made = match b { true => grow(v), false => v.push(2) }; match made { Ok(()) => Ok(()), Err(_) => Err(Fault::Memory), } }
fn in_else(v: &mut Vec<u8>) -> Result<(), Fault> { let Ok(()) = grow(v) else { return Err(Fault::Memory); }; Ok(()) }
fn failed(v: &mut Vec<u8>, w: &mut Vec<u8>) -> Result<(), Memory> { if v.reserve(1).is_err() || w.reserve(1).is_err() { return Err(Memory); } Ok(()) }
fn handed(e: Fault) -> Outcome { match e { Fault::Memory => Outcome::Memory, Fault::Taken => Outcome::Taken, } }
fn either(e: Result<u8, Fault>) -> Result<u8, Cause> { match e { Ok(n) => Ok(n), Err(Fault::Taken) | Err(Fault::Memory) => Err(Cause::Limit), } }
fn mapped(v: &mut Vec<u8>) -> Result<(), Fault> { grow(v).map_err(|_| Fault::Memory) }
fn of_kind(e: Error) -> Fault { match e { e if e.kind() == io::ErrorKind::OutOfMemory => Fault::Memory, _ => Fault::Taken, } }
fn asks(e: &Fault) -> bool { matches!(e, Fault::Memory) || *e == Fault::Memory }
fn if_let(v: &mut Vec<u8>) -> Result<(), Fault> { if let Err(AllocError) = v.push(3) { return Err(Fault::Memory); } Ok(()) }
fn typed(v: &mut Vec<u8>) -> Result<(), Memory> { let done: Result<(), AllocError> = grow(v); Ok(done?) }
impl From<AllocError> for Fault { fn from(_e: AllocError) -> Fault { Fault::Memory } }
const LARGE: usize = 1_000_000_000;
const CHUNK: usize = 65_536;
const BYTE: u8 = 255;
const BYTES: usize = BYTE as usize;
fn two_of_memory(e: Cause) -> Reply { match e { Cause::Memory | Cause::OutOfMemory => Reply::Memory, Cause::Line => Reply::Line, } }
fn field_read(a: Answer) -> bool { match a { Answer { reply: Refusal::Memory, .. } => true, _ => false } }
fn nested_read(a: Answer) -> bool { match a { Answer { reply: Reply::Refused(Refusal::Memory), place: None } => true, _ => false } }
fn field_handed(v: &mut Vec<u8>) -> Answer { match v.push(1) { Ok(()) => Answer::done(), Err(_) => Answer { place: None, reply: Refusal::Memory }, } }
fn asks_for_some(alloc: Global, v: &mut Vec<u8>, n: usize) -> Result<Vec<u8>, AllocError> { v.reserve(1)?; v.reserve(n)?; v.resize(1_000_000, 0)?; Vec::with_capacity(alloc, CHUNK) }
fn asks_for_a_byte(alloc: Global) -> Result<Vec<u8>, AllocError> { let all = Vec::with_capacity(alloc, BYTES)?; Vec::with_capacity(alloc, usize::from(BYTE)) }
fn asks_for_as_many(alloc: Global, set: &ParamSet, w: &[u8]) -> Result<Vec<u8>, AllocError> { let count = set.contract_count(); let all = Vec::with_capacity(alloc, count + 1)?; vec![in alloc; 0u8; w.len()] }
"""


def selftest():
    """Returns how many of the planted lines were judged wrongly, and says which."""
    with tempfile.TemporaryDirectory(prefix="memory-rule-") as room:
        for name, text in (("bad.rt", BAD), ("good.rt", GOOD)):
            with open(f"{room}/{name}", "w", encoding="utf-8") as it:
                it.write(text)
        _, wrong = wrong_places([f"{room}/bad.rt", f"{room}/good.rt"])
    found = {(os.path.basename(file), line) for file, line, *_ in wrong}
    wanted = {("bad.rt", at + 1) for at, line in enumerate(BAD.split("\n")) if line}
    for file, line in sorted(found ^ wanted):
        text = (BAD if file == "bad.rt" else GOOD).split("\n")[line - 1]
        print(f"the rule {'passes' if (file, line) in wanted else 'refuses'}: {text}")
    return len(found ^ wanted)


def main():
    missed = selftest()
    crates = [it.path for it in os.scandir(f"{source.TOP}/crates") if it.is_dir()]
    files = [it for crate in crates for it in source.files_below(f"{crate}/src", ".rt") if not source.is_of_tests(os.path.relpath(it, crate))]
    looked, wrong = wrong_places(sorted(files))
    failed = 0
    for file, line, function, why, text in wrong:
        path = os.path.relpath(file, source.TOP)
        if (path, function) not in ALLOWED:
            failed += 1
            print(f"{path}:{line}: {function or 'a constant'} {why}: {text}")
    print(f"{looked - failed} passed, {failed + missed} failed")
    return 1 if failed or missed else 0


if __name__ == "__main__":
    sys.exit(main())
