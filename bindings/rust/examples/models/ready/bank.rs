use selfcheck::Model;

/// Accounts, with what each has at first. A transfer of more than is there is refused.
pub struct Bank {
    pub accounts: Vec<u64>,
}

#[derive(Clone, Debug, PartialEq, Eq, Hash)]
pub enum Op {
    Transfer { from: usize, to: usize, sum: u64 },
    Balance(usize),
}

#[derive(Clone, Debug, PartialEq, Eq, Hash)]
pub enum Reply {
    IsDone(bool),
    Balance(u64),
}

impl Model for Bank {
    type State = Vec<u64>;
    type Op = Op;
    type Reply = Reply;

    fn initial(&self) -> Vec<u64> {
        self.accounts.clone()
    }

    fn step(&self, accounts: &Vec<u64>, op: &Op) -> (Vec<u64>, Reply) {
        let mut accounts = accounts.clone();
        let reply = match op {
            Op::Transfer { from, sum, .. } if accounts[*from] < *sum => Reply::IsDone(false),
            Op::Transfer { from, to, sum } => {
                accounts[*from] -= sum;
                accounts[*to] += sum;
                Reply::IsDone(true)
            }
            Op::Balance(account) => Reply::Balance(accounts[*account]),
        };
        (accounts, reply)
    }

    fn leaves(&self, _: &Op, reply: &Reply) -> bool {
        *reply != Reply::IsDone(true)
    }
}
