// Expressions as owned trees, and what docs/SEMANTICS.md and docs/ENGINE.md do with them.

#[derive(Clone, Copy, PartialEq, Eq, Hash, PartialOrd, Ord, Debug)]
pub enum Parameter {
    Value(u16),
    Variable(u8),
}

// A site call that was made and waits for its reply.
#[derive(Clone, Copy, PartialEq, Eq, Hash, PartialOrd, Ord, Debug)]
pub struct Pending {
    pub ticket: u32,
    pub site: u8,
    pub value: u16,
    pub clock: u32,
}

#[derive(Clone, PartialEq, Eq, Hash, PartialOrd, Ord, Debug)]
pub enum Expression {
    Stop,
    Site(u8, Parameter),
    Definition(u8, Parameter),
    Parallel(Box<Expression>, Box<Expression>),
    // The variable is bound in the second part.
    Sequential(u8, Box<Expression>, Box<Expression>),
    // The variable is bound in the first part.
    Pruning(u8, Box<Expression>, Box<Expression>),
    Pending(Pending),
}

// Where a reply went.
enum Outward {
    // Still on its way to what stands around.
    Published,
    // A sequential or a pruning took it.
    Taken,
}

// A standing ticket, and by how many bytes the form can grow when it is answered.
pub struct Standing {
    pub pending: Pending,
    pub growth: usize,
    taken: bool,
}

// What a reply has done.
pub struct Replied {
    // Nothing took the reply: it is published.
    pub published: bool,
    pub withdrawn: Vec<Pending>,
}

impl Expression {
    // The expression, with stop left in its place.
    fn take(&mut self) -> Expression {
        std::mem::replace(self, Expression::Stop)
    }

    // How many bytes its form has.
    pub fn size(&self) -> usize {
        match self {
            Expression::Stop => 1,
            Expression::Site(..) | Expression::Definition(..) => 5,
            Expression::Parallel(f, g) => 1 + f.size() + g.size(),
            Expression::Sequential(_, f, g) | Expression::Pruning(_, f, g) => 2 + f.size() + g.size(),
            Expression::Pending(_) => 12,
        }
    }

    // Writes its form behind `bytes`.
    pub fn write(&self, bytes: &mut Vec<u8>) {
        fn parameter(bytes: &mut Vec<u8>, parameter: Parameter) {
            match parameter {
                Parameter::Value(value) => {
                    bytes.push(0);
                    bytes.extend_from_slice(&value.to_be_bytes());
                }
                Parameter::Variable(variable) => bytes.extend_from_slice(&[1, 0, variable]),
            }
        }
        match self {
            Expression::Stop => bytes.push(0),
            Expression::Site(site, with) => {
                bytes.extend_from_slice(&[1, *site]);
                parameter(bytes, *with);
            }
            Expression::Definition(number, with) => {
                bytes.extend_from_slice(&[2, *number]);
                parameter(bytes, *with);
            }
            Expression::Parallel(f, g) => {
                bytes.push(3);
                f.write(bytes);
                g.write(bytes);
            }
            Expression::Sequential(variable, f, g) => {
                bytes.extend_from_slice(&[4, *variable]);
                f.write(bytes);
                g.write(bytes);
            }
            Expression::Pruning(variable, f, g) => {
                bytes.extend_from_slice(&[5, *variable]);
                f.write(bytes);
                g.write(bytes);
            }
            Expression::Pending(call) => {
                bytes.push(6);
                bytes.extend_from_slice(&call.ticket.to_be_bytes());
                bytes.push(call.site);
                bytes.extend_from_slice(&call.value.to_be_bytes());
                bytes.extend_from_slice(&call.clock.to_be_bytes());
            }
        }
    }

    pub fn form(&self) -> Vec<u8> {
        let mut bytes = Vec::with_capacity(64);
        self.write(&mut bytes);
        bytes
    }

    // Is the variable free here?
    pub fn has_free(&self, variable: u8) -> bool {
        match self {
            Expression::Stop | Expression::Pending(_) => false,
            Expression::Site(_, with) | Expression::Definition(_, with) => *with == Parameter::Variable(variable),
            Expression::Parallel(f, g) => f.has_free(variable) || g.has_free(variable),
            Expression::Sequential(x, f, g) => f.has_free(variable) || (*x != variable && g.has_free(variable)),
            Expression::Pruning(x, f, g) => (*x != variable && f.has_free(variable)) || g.has_free(variable),
        }
    }

    // Puts the value in for each free occurrence of the variable.
    pub fn substitute(&mut self, variable: u8, value: u16) {
        match self {
            Expression::Stop | Expression::Pending(_) => {}
            Expression::Site(_, with) | Expression::Definition(_, with) => {
                if *with == Parameter::Variable(variable) {
                    *with = Parameter::Value(value);
                }
            }
            Expression::Parallel(f, g) => {
                f.substitute(variable, value);
                g.substitute(variable, value);
            }
            Expression::Sequential(x, f, g) => {
                f.substitute(variable, value);
                if *x != variable {
                    g.substitute(variable, value);
                }
            }
            Expression::Pruning(x, f, g) => {
                if *x != variable {
                    f.substitute(variable, value);
                }
                g.substitute(variable, value);
            }
        }
    }

    pub fn with(&self, variable: u8, value: u16) -> Expression {
        let mut copy = self.clone();
        copy.substitute(variable, value);
        copy
    }

    // Clears away what has ended, from the innermost parts outward. The answer is the size of what is left.
    pub fn simplify(&mut self) -> usize {
        match self {
            Expression::Stop => 1,
            Expression::Site(..) | Expression::Definition(..) => 5,
            Expression::Pending(_) => 12,
            Expression::Parallel(f, g) => {
                let (f_size, g_size) = (f.simplify(), g.simplify());
                if **f == Expression::Stop {
                    *self = g.take();
                    g_size
                } else if **g == Expression::Stop {
                    *self = f.take();
                    f_size
                } else {
                    1 + f_size + g_size
                }
            }
            Expression::Sequential(_, f, g) => {
                let (f_size, g_size) = (f.simplify(), g.simplify());
                if **f == Expression::Stop {
                    *self = Expression::Stop;
                    1
                } else {
                    2 + f_size + g_size
                }
            }
            Expression::Pruning(x, f, g) => {
                let (f_size, g_size) = (f.simplify(), g.simplify());
                if **g == Expression::Stop && !f.has_free(*x) {
                    *self = f.take();
                    f_size
                } else {
                    2 + f_size + g_size
                }
            }
        }
    }

    // How many calls are due.
    pub fn due_count(&self) -> u32 {
        match self {
            Expression::Site(_, Parameter::Value(_)) | Expression::Definition(_, Parameter::Value(_)) => 1,
            Expression::Parallel(f, g) | Expression::Pruning(_, f, g) => f.due_count() + g.due_count(),
            Expression::Sequential(_, f, _) => f.due_count(),
            _ => 0,
        }
    }

    // The due call of a number. `number` is counted down by the due calls that were passed.
    pub fn due_call(&mut self, number: &mut u32) -> Option<&mut Expression> {
        match self {
            Expression::Site(_, Parameter::Value(_)) | Expression::Definition(_, Parameter::Value(_)) => {
                if *number == 0 {
                    return Some(self);
                }
                *number -= 1;
                None
            }
            Expression::Parallel(f, g) | Expression::Pruning(_, f, g) => match f.due_call(number) {
                Some(call) => Some(call),
                None => g.due_call(number),
            },
            Expression::Sequential(_, f, _) => f.due_call(number),
            _ => None,
        }
    }

    // Looks at the pending calls, from the left, until one is wanted.
    pub fn find_pending(&self, wanted: &mut impl FnMut(&Pending) -> bool) -> Option<Pending> {
        match self {
            Expression::Pending(call) => wanted(call).then_some(*call),
            Expression::Parallel(f, g) | Expression::Pruning(_, f, g) => f.find_pending(wanted).or_else(|| g.find_pending(wanted)),
            Expression::Sequential(_, f, _) => f.find_pending(wanted),
            _ => None,
        }
    }

    pub fn pending_calls(&self) -> Vec<Pending> {
        let mut calls = Vec::new();
        self.find_pending(&mut |call| {
            calls.push(*call);
            false
        });
        calls
    }

    // The pending call of a ticket.
    pub fn standing(&self, ticket: u32) -> Option<Standing> {
        match self {
            Expression::Pending(call) if call.ticket == ticket => Some(Standing { pending: *call, growth: 0, taken: false }),
            Expression::Parallel(f, g) => f.standing(ticket).or_else(|| g.standing(ticket)),
            Expression::Sequential(_, f, g) => f.standing(ticket).map(|found| {
                let growth = if found.taken { found.growth } else { 1 + g.size() };
                Standing { growth, taken: true, ..found }
            }),
            Expression::Pruning(_, f, g) => {
                f.standing(ticket).or_else(|| g.standing(ticket).map(|found| Standing { taken: true, ..found }))
            }
            _ => None,
        }
    }

    // The pending call of the ticket becomes stop, and the value goes outward. None if no call has the ticket.
    pub fn reply(&mut self, ticket: u32, value: u16) -> Option<Replied> {
        let mut withdrawn = Vec::new();
        let outward = self.send(ticket, value, &mut withdrawn)?;
        Some(Replied { published: matches!(outward, Outward::Published), withdrawn })
    }

    fn send(&mut self, ticket: u32, value: u16, withdrawn: &mut Vec<Pending>) -> Option<Outward> {
        match self {
            Expression::Pending(call) if call.ticket == ticket => {
                *self = Expression::Stop;
                Some(Outward::Published)
            }
            Expression::Parallel(f, g) => match f.send(ticket, value, withdrawn) {
                None => g.send(ticket, value, withdrawn),
                sent => sent,
            },
            Expression::Sequential(x, f, g) => {
                if let Outward::Published = f.send(ticket, value, withdrawn)? {
                    let copy = g.with(*x, value);
                    *self = Expression::Parallel(Box::new(self.take()), Box::new(copy));
                }
                Some(Outward::Taken)
            }
            Expression::Pruning(x, f, g) => {
                if let Some(sent) = f.send(ticket, value, withdrawn) {
                    return Some(sent);
                }
                if let Outward::Published = g.send(ticket, value, withdrawn)? {
                    withdrawn.extend(g.pending_calls());
                    f.substitute(*x, value);
                    *self = f.take();
                }
                Some(Outward::Taken)
            }
            _ => None,
        }
    }

    // Each pending call that is to lapse becomes stop.
    pub fn lapse(&mut self, lapses: &mut impl FnMut(&Pending) -> bool) {
        match self {
            Expression::Pending(call) => {
                if lapses(call) {
                    *self = Expression::Stop;
                }
            }
            Expression::Parallel(f, g) | Expression::Pruning(_, f, g) => {
                f.lapse(lapses);
                g.lapse(lapses);
            }
            Expression::Sequential(_, f, _) => f.lapse(lapses),
            _ => {}
        }
    }
}
