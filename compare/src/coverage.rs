// What was met, so that one sees what the random cases reach.

#[derive(Clone, Default)]
pub struct Coverage {
    pub files: [u64; 16],
    pub sheets: [u64; 16],
    // By kind of call: go, answer, wait.
    pub refused: [[u64; 32]; 3],
    pub accepted: [u64; 3],
    pub no_calls: u64,
    pub events: [u64; 3],
    pub called: u64,
    pub answered: u64,
    pub withdrawn: u64,
    pub lapsed: u64,
    pub standing: u64,
    pub lives: u64,
    pub prefixes: u64,
    pub inputs: u64,
    // Accepted inputs of the longest size, and longer ones.
    pub longest: u64,
    pub too_long: u64,
    pub largest_form: u64,
    pub longest_life: u64,
    pub full_records: u64,
    pub late_clocks: u64,
    // Accepted calls that left a form of the largest size, and refused ones that would have left one byte more.
    pub just_fits: u64,
    pub just_not: u64,
    // Replies on the first and on the last tick of a window, of those with both.
    pub earliest: u64,
    pub latest: u64,
}

impl Coverage {
    pub fn add(&mut self, other: &Coverage) {
        fn each(a: &mut [u64], b: &[u64]) {
            for (a, b) in a.iter_mut().zip(b) {
                *a += b;
            }
        }
        each(&mut self.files, &other.files);
        each(&mut self.sheets, &other.sheets);
        for (a, b) in self.refused.iter_mut().zip(&other.refused) {
            each(a, b);
        }
        each(&mut self.accepted, &other.accepted);
        each(&mut self.events, &other.events);
        self.no_calls += other.no_calls;
        self.called += other.called;
        self.answered += other.answered;
        self.withdrawn += other.withdrawn;
        self.lapsed += other.lapsed;
        self.standing += other.standing;
        self.lives += other.lives;
        self.prefixes += other.prefixes;
        self.inputs += other.inputs;
        self.longest += other.longest;
        self.too_long += other.too_long;
        self.largest_form = self.largest_form.max(other.largest_form);
        self.longest_life = self.longest_life.max(other.longest_life);
        self.full_records += other.full_records;
        self.late_clocks += other.late_clocks;
        self.just_fits += other.just_fits;
        self.just_not += other.just_not;
        self.earliest += other.earliest;
        self.latest += other.latest;
    }

    fn numbers(met: &[u64], from: usize, to: usize) -> String {
        (from..=to).map(|n| format!(" {n}:{}", met[n])).collect()
    }

    pub fn print_inputs(&self) {
        println!("  files: accepted {}, refused{}", self.files[0], Coverage::numbers(&self.files, 1, 8));
        println!("  sheets: accepted {}, refused{}{}", self.sheets[0], Coverage::numbers(&self.sheets, 1, 3), Coverage::numbers(&self.sheets, 7, 12).replace(" 8:0", ""));
        println!("  accepted files of 4096 bytes {}, files above {}", self.longest, self.too_long);
    }

    pub fn print_lives(&self) {
        println!("  lives {}, and {} prefixes of them; files accepted {}, refused {}", self.lives, self.prefixes, self.files[0], self.files[1..].iter().sum::<u64>());
        for (kind, name) in ["go", "answer", "wait"].into_iter().enumerate() {
            let met = |n: &usize| self.refused[kind][*n] > 0;
            let refused: String = (21..=29).filter(met).map(|n| format!(" {n}:{}", self.refused[kind][n])).collect();
            println!("  {name}: accepted {}, refused{refused}", self.accepted[kind]);
        }
        println!("  no calls {}", self.no_calls);
        println!("  events: call {}, inner {}, out {}", self.events[0], self.events[1], self.events[2]);
        println!(
            "  tickets: called {}, answered {}, withdrawn {}, lapsed {}, standing {}",
            self.called, self.answered, self.withdrawn, self.lapsed, self.standing
        );
        println!("  replies on a window's first tick {}, on its last {}", self.earliest, self.latest);
        println!(
            "  largest form {}, left so by {} calls, and {} refused for one byte more; most calls in a life {}, full records {}, clocks at their end {}",
            self.largest_form, self.just_fits, self.just_not, self.longest_life, self.full_records, self.late_clocks
        );
    }

    // The kinds that were not met, of those that a run with many cases must meet.
    pub fn missing_inputs(&self) -> Vec<String> {
        let files = (0..=8).filter(|n| self.files[*n] == 0).map(|n| format!("file verdict {n}"));
        let sheets = [0, 1, 2, 3, 7, 9, 10, 11, 12].into_iter().filter(|n| self.sheets[*n] == 0).map(|n| format!("sheet verdict {n}"));
        files.chain(sheets).collect()
    }

    pub fn missing_lives(&self) -> Vec<String> {
        let refusals: [(&str, &[usize]); 3] = [("go", &[21, 22, 28, 29]), ("answer", &[21, 23, 24, 28, 29]), ("wait", &[21, 25, 26, 27])];
        let mut missing = Vec::new();
        for ((name, numbers), (refused, accepted)) in refusals.into_iter().zip(self.refused.iter().zip(self.accepted)) {
            if accepted == 0 {
                missing.push(name.to_string());
            }
            missing.extend(numbers.iter().filter(|n| refused[**n] == 0).map(|n| format!("{name} refused by {n}")));
        }
        let others = [
            (self.events[0], "event call"),
            (self.events[1], "event inner"),
            (self.events[2], "event out"),
            (self.withdrawn, "withdrawn"),
            (self.lapsed, "lapsed"),
            (self.standing, "standing"),
            (self.earliest, "a reply on a window's first tick"),
            (self.latest, "a reply on a window's last tick"),
            (self.just_fits, "a form of the largest size"),
            (self.just_not, "a form of one byte more"),
            (self.full_records, "a full record"),
            (self.late_clocks, "a clock at its end"),
        ];
        missing.extend(others.into_iter().filter(|(n, _)| *n == 0).map(|(_, name)| name.to_string()));
        missing
    }
}
