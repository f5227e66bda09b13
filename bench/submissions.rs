//! The same exchange as that of `bench/submissions`, with std's maps and heaps: so many documents are handed in at one
//! end, each is taken, comes at a second end, and its receipt is brought back.

use std::cmp::Reverse;
use std::collections::{BTreeMap, BinaryHeap, HashMap};
use std::io::Read;

#[derive(Clone, PartialEq)]
struct Party {
    id: String,
    kind: Option<String>,
}

#[derive(Clone, PartialEq)]
struct Side {
    parties: Vec<Party>,
    role: String,
}

#[derive(Clone, PartialEq)]
struct Header {
    mpc: Option<String>,
    stamp: String,
    id: String,
    ref_to: Option<String>,
    from: Side,
    to: Side,
    agreement: Option<(String, Option<String>, Option<String>)>,
    service: (String, Option<String>),
    action: String,
    conversation: Option<String>,
    properties: Vec<(String, Option<String>, Option<String>)>,
    parts: Vec<(Option<String>, Vec<(String, Option<String>, Option<String>)>)>,
}

#[derive(Clone)]
struct Payload {
    cid: String,
    media: String,
    content: Vec<u8>,
}

#[derive(PartialEq)]
enum Mark {
    Pending,
    Receipted,
}

struct Sent {
    header: Header,
    payloads: Vec<Payload>,
    address: String,
    retries: u32,
    period: u64,
    tries: u32,
    last: u64,
    mark: Mark,
}

struct Entry {
    header: Header,
    payloads: Vec<Payload>,
}

struct Receipt {
    stamp: String,
    id: String,
    ref_to: String,
    copy: Header,
}

#[derive(Default)]
struct End {
    sent: Vec<Sent>,
    numbers: HashMap<String, usize>,
    due: BinaryHeap<Reverse<(u64, usize)>>,
    inbox: Vec<Entry>,
    held: BTreeMap<String, usize>,
    receipted: u64,
    size: u64,
}

fn id_of(number: usize, nonce: u128) -> String {
    let hex = format!("{nonce:032x}");
    format!(
        "{number}.{}-{}-{}-{}-{}@as4",
        &hex[..8],
        &hex[8..12],
        &hex[12..16],
        &hex[16..20],
        &hex[20..]
    )
}

fn side(party: &str, role: &str) -> Side {
    Side {
        parties: vec![Party {
            id: party.to_string(),
            kind: None,
        }],
        role: role.to_string(),
    }
}

fn side_len(side: &Side) -> u64 {
    side.parties.iter().map(|p| 9 + p.id.len() as u64).sum::<u64>() + 8 + side.role.len() as u64
}

fn header_len(h: &Header) -> u64 {
    (h.stamp.len() + h.id.len() + h.action.len() + h.service.0.len() + 40) as u64
        + side_len(&h.from)
        + side_len(&h.to)
}

impl End {
    fn submit(&mut self, nonce: u128) {
        let number = self.sent.len();
        let id = id_of(number, nonce);
        assert!(!self.numbers.contains_key(&id));
        let header = Header {
            mpc: None,
            stamp: "1970-01-01T00:00:00.000Z".to_string(),
            id: id.clone(),
            ref_to: None,
            from: side("acme", "seller"),
            to: side("bolt", "buyer"),
            agreement: None,
            service: ("orders".to_string(), None),
            action: "invoice".to_string(),
            conversation: None,
            properties: Vec::new(),
            parts: Vec::new(),
        };
        self.size += header_len(&header) + 60;
        self.numbers.insert(id, number);
        self.due.push(Reverse((0, number)));
        self.sent.push(Sent {
            header,
            payloads: Vec::new(),
            address: "http://127.0.0.1:9080/as4".to_string(),
            retries: 3,
            period: 1000,
            tries: 0,
            last: 0,
            mark: Mark::Pending,
        });
    }

    fn take(&mut self, now: u64) -> Option<(String, Header, Vec<Payload>)> {
        loop {
            let Reverse((due, number)) = *self.due.peek()?;
            if due > now {
                return None;
            }
            self.due.pop();
            let sent = &mut self.sent[number];
            if sent.mark != Mark::Pending {
                continue;
            }
            sent.tries += 1;
            sent.last = now;
            if sent.tries <= sent.retries {
                self.due.push(Reverse((now + sent.period, number)));
            }
            self.size += 20;
            return Some((sent.address.clone(), sent.header.clone(), sent.payloads.clone()));
        }
    }

    fn comes(&mut self, nonce: u128, header: Header, payloads: Vec<Payload>) -> Receipt {
        let receipt = Receipt {
            stamp: "1970-01-01T00:00:00.000Z".to_string(),
            id: id_of(0, nonce),
            ref_to: header.id.clone(),
            copy: header.clone(),
        };
        if !self.held.contains_key(&header.id) {
            self.size += header_len(&header) + payloads.iter().map(|p| p.content.len() as u64).sum::<u64>();
            self.held.insert(header.id.clone(), self.inbox.len());
            self.inbox.push(Entry { header, payloads });
        }
        receipt
    }

    fn receipt(&mut self, receipt: Receipt) -> bool {
        let Some(number) = self.numbers.get(&receipt.ref_to) else {
            return false;
        };
        let sent = &mut self.sent[*number];
        if receipt.copy != sent.header || receipt.stamp.is_empty() || receipt.id.is_empty() {
            return false;
        }
        if sent.mark == Mark::Pending {
            sent.mark = Mark::Receipted;
            self.receipted += 1;
            self.size += 20;
        }
        true
    }
}

fn main() {
    let mut text = String::new();
    std::io::stdin().read_to_string(&mut text).unwrap();
    let count: u64 = text.trim().parse().unwrap();
    let (mut a, mut b) = (End::default(), End::default());
    for n in 0..count {
        a.submit(u128::from(n));
    }
    for n in 0..count {
        let (address, header, payloads) = a.take(0).unwrap();
        drop(address);
        let receipt = b.comes(u128::from(n), header, payloads);
        assert!(a.receipt(receipt));
    }
    assert_eq!(a.receipted, count);
    assert_eq!(b.inbox.len() as u64, count);
    assert!(b.inbox.iter().all(|e| e.payloads.iter().all(|p| p.cid.len() + p.media.len() > 0)));
    assert!(a.size + b.size > 0 && b.inbox[0].header.id == a.sent[0].header.id);
}
