//! A plan and its text.

/// p of the policy line.
#[derive(Clone, Copy, PartialEq, Eq, Debug)]
pub enum Policy {
    Periodic,
    Deferrable,
}

/// o of the policy line.
#[derive(Clone, Copy, PartialEq, Eq, Debug)]
pub enum Overrun {
    With,
    Without,
}

#[derive(Clone, PartialEq, Eq, Debug)]
pub struct Vcpu {
    pub v: u64,
    pub guest: u64,
    pub core: u64,
    pub budget: u64,
    pub period: u64,
}

impl Vcpu {
    /// Period less budget.
    pub fn gap(&self) -> u64 {
        self.period.saturating_sub(self.budget)
    }
}

#[derive(Clone, Copy, PartialEq, Eq, Debug)]
pub enum Owner {
    Global,
    Local(u64),
}

#[derive(Clone, PartialEq, Eq, Debug)]
pub struct Mutex {
    pub m: u64,
    pub owner: Owner,
}

#[derive(Clone, PartialEq, Eq, Debug)]
pub struct Open {
    pub m: u64,
    pub guest: u64,
}

/// `lock m t` and the `run` after it.
#[derive(Clone, PartialEq, Eq, Debug)]
pub struct Lock {
    pub m: u64,
    pub t: u64,
    pub run: u64,
}

#[derive(Clone, PartialEq, Eq, Debug)]
pub struct Task {
    pub v: u64,
    pub n: u64,
    pub period: u64,
    pub first: u64,
    pub locks: Vec<Lock>,
}

impl Task {
    /// Every run and every lock added up.
    pub fn lengths(&self) -> u64 {
        self.locks.iter().map(|l| l.t + l.run).sum::<u64>() + self.first
    }

    /// The task's sheet locks m.
    pub fn lists(&self, m: u64) -> bool {
        self.locks.iter().any(|l| l.m == m)
    }
}

/// `guest g` and its tasks.
#[derive(Clone, PartialEq, Eq, Debug)]
pub struct Section {
    pub guest: u64,
    pub tasks: Vec<Task>,
}

#[derive(Clone, PartialEq, Eq, Debug)]
pub struct Plan {
    pub policy: Policy,
    pub overrun: Overrun,
    pub vcpus: Vec<Vcpu>,
    pub mutexes: Vec<Mutex>,
    pub opens: Vec<Open>,
    pub sections: Vec<Section>,
}

impl Plan {
    pub fn empty(policy: Policy, overrun: Overrun) -> Plan {
        Plan {
            policy,
            overrun,
            vcpus: Vec::new(),
            mutexes: Vec::new(),
            opens: Vec::new(),
            sections: Vec::new(),
        }
    }

    pub fn vcpu(&self, v: u64) -> Option<&Vcpu> {
        self.vcpus.iter().find(|c| c.v == v)
    }

    pub fn mutex(&self, m: u64) -> Option<&Mutex> {
        self.mutexes.iter().find(|x| x.m == m)
    }

    pub fn is_global(&self, m: u64) -> bool {
        self.mutexes
            .iter()
            .any(|x| x.m == m && x.owner == Owner::Global)
    }

    pub fn is_local_of(&self, m: u64, v: u64) -> bool {
        self.mutexes
            .iter()
            .any(|x| x.m == m && x.owner == Owner::Local(v))
    }

    pub fn is_open(&self, m: u64, guest: u64) -> bool {
        self.opens.iter().any(|o| o.m == m && o.guest == guest)
    }

    pub fn guest_has_vcpu(&self, guest: u64) -> bool {
        self.vcpus.iter().any(|c| c.guest == guest)
    }

    /// Tasks in file order.
    pub fn tasks(&self) -> impl Iterator<Item = &Task> {
        self.sections.iter().flat_map(|s| s.tasks.iter())
    }

    /// Tasks of one VCPU.
    pub fn tasks_of(&self, v: u64) -> impl Iterator<Item = &Task> {
        self.tasks().filter(move |t| t.v == v)
    }

    pub fn task(&self, v: u64, n: u64) -> Option<&Task> {
        self.tasks().find(|t| t.v == v && t.n == n)
    }

    /// Tasks of the whole plan, (v, n) rising.
    pub fn tasks_rising(&self) -> Vec<&Task> {
        let mut all: Vec<&Task> = self.tasks().collect();
        all.sort_by_key(|t| (t.v, t.n));
        all
    }

    /// A local mutex's ceiling: the greatest n whose sheet locks it, 0 if none.
    pub fn ceiling(&self, m: u64) -> u64 {
        self.tasks()
            .filter(|t| t.lists(m))
            .map(|t| t.n)
            .max()
            .unwrap_or(0)
    }

    /// The two letters of the policy line.
    pub fn policy_letters(&self) -> &'static str {
        match (self.policy, self.overrun) {
            (Policy::Periodic, Overrun::With) => "P O",
            (Policy::Periodic, Overrun::Without) => "P N",
            (Policy::Deferrable, Overrun::With) => "D O",
            (Policy::Deferrable, Overrun::Without) => "D N",
        }
    }

    /// The plan's text; an accepted plan's text is the input it was read from.
    pub fn text(&self) -> Vec<u8> {
        let mut out = String::from("plan\t1\n");
        let p = match self.policy {
            Policy::Periodic => "P",
            Policy::Deferrable => "D",
        };
        let o = match self.overrun {
            Overrun::With => "O",
            Overrun::Without => "N",
        };
        out.push_str(&format!("policy\t{}\t{}\n", p, o));
        for c in &self.vcpus {
            out.push_str(&format!(
                "vcpu\t{}\t{}\t{}\t{}\t{}\n",
                c.v, c.guest, c.core, c.budget, c.period
            ));
        }
        for x in &self.mutexes {
            match x.owner {
                Owner::Global => out.push_str(&format!("mutex\t{}\tG\n", x.m)),
                Owner::Local(v) => out.push_str(&format!("mutex\t{}\tL\t{}\n", x.m, v)),
            }
        }
        for o in &self.opens {
            out.push_str(&format!("open\t{}\t{}\n", o.m, o.guest));
        }
        for s in &self.sections {
            out.push_str(&format!("guest\t{}\n", s.guest));
            for t in &s.tasks {
                out.push_str(&format!("task\t{}\t{}\t{}\n", t.v, t.n, t.period));
                out.push_str(&format!("run\t{}\n", t.first));
                for l in &t.locks {
                    out.push_str(&format!("lock\t{}\t{}\nrun\t{}\n", l.m, l.t, l.run));
                }
            }
        }
        out.push_str("end\n");
        out.into_bytes()
    }

    /// One tab-parted line per record, a task whole in one line, in file order.
    pub fn dump(&self) -> Vec<u8> {
        let mut out = Vec::new();
        for line in self.text().split(|b| *b == b'\n') {
            let word = line.split(|b| *b == b'\t').next().unwrap_or(&[]);
            if matches!(word, b"policy" | b"vcpu" | b"mutex" | b"open") {
                out.extend_from_slice(line);
                out.push(b'\n');
            }
        }
        for s in &self.sections {
            for t in &s.tasks {
                let mut row = format!(
                    "task\t{}\t{}\t{}\t{}\t{}\t{}",
                    s.guest,
                    t.v,
                    t.n,
                    t.period,
                    t.first,
                    t.locks.len()
                );
                for l in &t.locks {
                    row.push_str(&format!("\t{}\t{}\t{}", l.m, l.t, l.run));
                }
                row.push('\n');
                out.extend_from_slice(row.as_bytes());
            }
        }
        out
    }
}
