//! Lua itself as a judge of findings: scripts are checked and then run, on many ways through them.
//! A read that is listed as unassigned must never see a value, and a value that is listed as
//! overwritten must never be read.

mod common;

use std::collections::{BTreeMap, BTreeSet};
use std::path::Path;
use std::process::Command;

use common::random::Random;
use common::{folder, is_installed};
use waldimu::check::{Finding, FindingKind, check};
use waldimu::library::Unit;
use waldimu::token::Dialect;

const SCRIPTS: usize = 300;
const NAMES: [&str; 4] = ["a", "b", "c", "d"];

/// Runs each script on forty ways and prints which reads saw a value, and which values were read.
/// `C` goes either way, `keep` takes a function and may call it, `later` calls one of those.
const DRIVER: &str = r#"
local folder, count = arg[1], tonumber(arg[2])
for number = 0, count - 1 do
  local filled, seen = {}, {}
  local fuel, is_stopped, kept
  local function stop() is_stopped = true error("stop") end
  local function burn() fuel = fuel - 1 if fuel < 0 then stop() end end
  local env = { error = error }
  function env.R(id, value) if value then filled[id] = true seen[value.id] = true end end
  function env.W(id) return { id = id } end
  function env.C() burn() return math.random() < 0.5 end
  function env.keep(_, f, _) burn() kept[#kept + 1] = f if math.random() < 0.4 then f() end end
  function env.later() burn() if #kept > 0 then kept[math.random(#kept)]() end end
  function env.try(f) local ok, why = pcall(f) if not ok and is_stopped then error(why, 0) end end
  local script = assert(loadfile(folder .. "/" .. number .. ".lua", "t", env))
  for way = 1, 40 do
    math.randomseed(way)
    fuel, is_stopped, kept = 60, false, {}
    local run = coroutine.create(script)
    debug.sethook(run, stop, "", 4000)
    coroutine.resume(run)
  end
  for id in pairs(filled) do print(number, "filled", id) end
  for id in pairs(seen) do print(number, "seen", id) end
end
"#;

/// A script, and the numbers of its reads and writes by where their names stand.
struct Script {
    random: Random,
    text: String,
    reads: BTreeMap<u32, usize>,
    writes: BTreeMap<u32, usize>,
    labels: usize,
}

impl Script {
    fn new(seed: u64) -> Self {
        let (reads, writes) = (BTreeMap::new(), BTreeMap::new());
        let random = Random::new(seed);
        let mut script = Self { random, text: String::new(), reads, writes, labels: 0 };
        for _ in 0..3 {
            script.stmts(4, false);
        }
        script
    }

    fn put(&mut self, text: &str) {
        self.text.push_str(text);
    }

    fn read(&mut self) {
        let id = self.reads.len();
        self.put(&format!("R({id}, "));
        self.reads.insert(self.text.len() as u32, id);
        let name = self.random.pick(&NAMES);
        self.put(&format!("{name})"));
    }

    /// Names side by side, and values for the first of them.
    fn names(&mut self, name_count: usize, value_count: usize) {
        let first = self.random.below(NAMES.len());
        let first_id = self.writes.len();
        for place in 0..name_count {
            self.put(if place > 0 { ", " } else { "" });
            if place < value_count {
                self.writes.insert(self.text.len() as u32, first_id + place);
            }
            self.put(NAMES[(first + place) % NAMES.len()]);
        }
        for id in first_id..self.writes.len() {
            // In parentheses, so that no other name gets a value of it.
            self.put(if id > first_id { ", (" } else { " = (" });
            self.put(&format!("W({id}, "));
            self.read();
            self.put("))");
        }
        self.put("\n");
    }

    fn stmts(&mut self, depth: usize, is_loop: bool) {
        for _ in 0..1 + self.random.below(5) {
            self.stmt(depth, is_loop);
        }
    }

    fn block(&mut self, depth: usize, is_loop: bool) {
        self.stmts(depth, is_loop);
        match self.random.below(24) {
            0 if is_loop => self.put("break\n"),
            1 => self.put("do return end\n"),
            2 => self.put("error('e')\n"),
            _ => {}
        }
    }

    fn within(&mut self, head: &str, depth: usize, is_loop: bool, tail: &str) {
        self.put(head);
        self.block(depth - 1, is_loop);
        self.put(tail);
    }

    fn stmt(&mut self, depth: usize, is_loop: bool) {
        match self.random.below(if depth > 0 { 18 } else { 8 }) {
            0 | 1 => {
                self.put("local ");
                let (name_count, value_count) = (1 + self.random.below(2), self.random.below(3));
                self.names(name_count, value_count);
            }
            2..=4 => {
                let count = 1 + self.random.below(2);
                self.names(count, count);
            }
            5 | 6 => {
                self.read();
                self.put("\n");
            }
            7 => self.put("later()\n"),
            8 => {
                self.within("if C() then\n", depth, is_loop, "");
                self.within("else\n", depth, is_loop, "end\n");
            }
            9 => self.within("if C() then\n", depth, is_loop, "end\n"),
            10 => self.within("while C() do\n", depth, true, "end\n"),
            11 => self.within("while true do\n", depth, true, "end\n"),
            12 => {
                self.within("repeat\n", depth, true, "until C(");
                self.read();
                self.put(")\n");
            }
            13 => self.within("for i = 1, 2 do\n", depth, true, "end\n"),
            14 => self.within("do\n", depth, is_loop, "end\n"),
            15 => self.within("try(function()\n", depth, false, "end)\n"),
            16 => {
                self.put("keep(");
                self.read();
                self.within(", function()\n", depth, false, "end, ");
                self.read();
                self.put(")\n");
            }
            _ => self.jumps(depth),
        }
    }

    /// A goto past the rest of a loop's body, or one back.
    fn jumps(&mut self, depth: usize) {
        self.labels += 1;
        let label = format!("l{}", self.labels);
        if self.random.below(2) == 0 {
            self.put(&format!("while C() do\ndo\nif C() then goto {label} end\n"));
            self.within("", depth, true, &format!("end\n::{label}::\nend\n"));
        } else {
            self.put(&format!("::{label}::\n"));
            self.within("do\n", depth, false, &format!("end\nif C() then goto {label} end\n"));
        }
    }
}

/// What was seen of a script: the reads that had a value, and the writes whose value was read.
#[derive(Default)]
struct Seen {
    filled: BTreeSet<usize>,
    read: BTreeSet<usize>,
}

fn run_all(program: &str, room: &Path) -> Vec<Seen> {
    let driver = room.join("driver.txt");
    std::fs::write(&driver, DRIVER).expect("a file");
    let output = Command::new(program)
        .arg(driver)
        .arg(room)
        .arg(SCRIPTS.to_string())
        .output()
        .expect("it is installed");
    assert!(output.status.success(), "{}", String::from_utf8_lossy(&output.stderr));
    let mut all: Vec<Seen> = (0..SCRIPTS).map(|_| Seen::default()).collect();
    for line in String::from_utf8(output.stdout).expect("text").lines() {
        let words: Vec<&str> = line.split('\t').collect();
        let number = |place: usize| words[place].parse::<usize>().expect("a number");
        let seen = &mut all[number(0)];
        let set = if words[1] == "filled" { &mut seen.filled } else { &mut seen.read };
        set.insert(number(2));
    }
    all
}

/// Whether a run has shown that the finding is wrong.
fn is_refuted(finding: &Finding, script: &Script, seen: &Seen) -> bool {
    let place = finding.span.start;
    match finding.kind {
        FindingKind::Unassigned => seen.filled.contains(&script.reads[&place]),
        FindingKind::Overwritten | FindingKind::OverwrittenInitial => {
            seen.read.contains(&script.writes[&place])
        }
    }
}

#[test]
fn findings_hold_when_scripts_run() {
    let Some(program) = ["lua5.4", "lua5.3"].into_iter().find(|program| is_installed(program))
    else {
        println!("lua5.4 and lua5.3 are not installed: findings not compared with runs");
        return;
    };
    let room = folder("runs");
    let scripts: Vec<Script> = (0..SCRIPTS as u64).map(|seed| Script::new(600 + seed)).collect();
    for (number, script) in scripts.iter().enumerate() {
        std::fs::write(room.join(format!("{number}.lua")), &script.text).expect("a file");
    }
    let mut unit = Unit::default();
    let (mut unassigned, mut overwritten) = (0, 0);
    for (script, seen) in scripts.iter().zip(run_all(program, &room)) {
        let report = check(script.text.as_bytes(), Dialect::Lua, &mut unit).expect("a script");
        for finding in &report.findings {
            assert!(!is_refuted(finding, script, &seen), "{finding:?}\n{}", script.text);
            let is_unassigned = finding.kind == FindingKind::Unassigned;
            *(if is_unassigned { &mut unassigned } else { &mut overwritten }) += 1;
        }
    }
    println!("{program}: {unassigned} unassigned and {overwritten} overwritten hold in runs");
    assert!(unassigned > 500 && overwritten > 200, "{unassigned} and {overwritten}");
}
