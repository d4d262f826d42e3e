use selfcheck::Model;
use std::collections::BTreeMap;

/// Strings by keys, each with the number of its version, from 1 on; empty at first.
pub struct Store;

#[derive(Clone, Debug, PartialEq, Eq, Hash)]
pub enum Op {
    Put {
        key: String,
        value: String,
    },
    /// Where the key has this version.
    PutAt {
        key: String,
        version: u64,
        value: String,
    },
    Get {
        key: String,
    },
}

#[derive(Clone, Debug, PartialEq, Eq, Hash)]
pub enum Reply {
    /// The new version.
    Put(u64),
    Refused,
    Got(Option<(String, u64)>),
}

impl Model for Store {
    type State = BTreeMap<String, (String, u64)>;
    type Op = Op;
    type Reply = Reply;

    fn initial(&self) -> Self::State {
        BTreeMap::new()
    }

    fn step(&self, values: &Self::State, op: &Op) -> (Self::State, Reply) {
        let mut values = values.clone();
        let version_of = |key| values.get(key).map_or(0, |(_, version)| *version);
        let reply = match op {
            Op::PutAt { key, version, .. } if version_of(key) != *version => Reply::Refused,
            Op::Put { key, value } | Op::PutAt { key, value, .. } => {
                let version = version_of(key) + 1;
                values.insert(key.clone(), (value.clone(), version));
                Reply::Put(version)
            }
            Op::Get { key } => Reply::Got(values.get(key).cloned()),
        };
        (values, reply)
    }

    fn leaves(&self, _: &Op, reply: &Reply) -> bool {
        !matches!(reply, Reply::Put(_))
    }

    fn key(&self, op: &Op) -> Option<String> {
        let (Op::Put { key, .. } | Op::PutAt { key, .. } | Op::Get { key }) = op;
        Some(key.clone())
    }
}
