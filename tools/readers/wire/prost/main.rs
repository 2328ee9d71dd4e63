//! Reads messages of one form with prost, and prints the lines that ../main.go prints. The messages are those of ../wire.proto.

use prost::Message;
use std::io::Write;

#[derive(Clone, PartialEq, Message)]
struct DataAvailabilityHeader {
    #[prost(bytes = "vec", repeated, tag = "1")]
    row_roots: Vec<Vec<u8>>,
    #[prost(bytes = "vec", repeated, tag = "2")]
    column_roots: Vec<Vec<u8>>,
}

#[derive(Clone, PartialEq, Message)]
struct Header {
    #[prost(bytes = "vec", tag = "7")]
    data_hash: Vec<u8>,
}

#[derive(Clone, PartialEq, Message)]
struct ExtendedHeader {
    #[prost(message, optional, tag = "1")]
    header: Option<Header>,
    #[prost(message, optional, tag = "4")]
    dah: Option<DataAvailabilityHeader>,
}

#[derive(Clone, PartialEq, Message)]
struct Proof {
    #[prost(int64, tag = "1")]
    start: i64,
    #[prost(int64, tag = "2")]
    end: i64,
    #[prost(bytes = "vec", repeated, tag = "3")]
    nodes: Vec<Vec<u8>>,
    #[prost(bytes = "vec", tag = "4")]
    leaf_hash: Vec<u8>,
    #[prost(bool, tag = "5")]
    is_max_namespace_ignored: bool,
}

#[derive(Clone, PartialEq, Message)]
struct Share {
    #[prost(bytes = "vec", tag = "1")]
    data: Vec<u8>,
}

#[derive(Clone, PartialEq, Message)]
struct Sample {
    #[prost(message, optional, tag = "1")]
    share: Option<Share>,
    #[prost(message, optional, tag = "2")]
    proof: Option<Proof>,
    #[prost(int32, tag = "3")]
    proof_type: i32,
}

#[derive(Clone, PartialEq, Message)]
struct RowNamespaceData {
    #[prost(message, repeated, tag = "1")]
    shares: Vec<Share>,
    #[prost(message, optional, tag = "2")]
    proof: Option<Proof>,
}

#[derive(Clone, PartialEq, Message)]
struct Row {
    #[prost(message, repeated, tag = "1")]
    shares_half: Vec<Share>,
    #[prost(int32, tag = "2")]
    half_side: i32,
}

#[derive(Clone, PartialEq, Message)]
struct ShareWithProof {
    #[prost(bytes = "vec", tag = "1")]
    data: Vec<u8>,
    #[prost(message, optional, tag = "2")]
    proof: Option<Proof>,
    #[prost(int32, tag = "3")]
    proof_axis: i32,
}

#[derive(Clone, PartialEq, Message)]
struct BadEncoding {
    #[prost(bytes = "vec", tag = "1")]
    header_hash: Vec<u8>,
    #[prost(uint64, tag = "2")]
    height: u64,
    #[prost(message, repeated, tag = "3")]
    shares: Vec<ShareWithProof>,
    #[prost(uint32, tag = "4")]
    index: u32,
    #[prost(int32, tag = "5")]
    axis: i32,
}

#[derive(Clone, PartialEq, Message)]
struct NmtProof {
    #[prost(int32, tag = "1")]
    start: i32,
    #[prost(int32, tag = "2")]
    end: i32,
    #[prost(bytes = "vec", repeated, tag = "3")]
    nodes: Vec<Vec<u8>>,
    #[prost(bytes = "vec", tag = "4")]
    leaf_hash: Vec<u8>,
}

#[derive(Clone, PartialEq, Message)]
struct MerkleProof {
    #[prost(int64, tag = "1")]
    total: i64,
    #[prost(int64, tag = "2")]
    index: i64,
    #[prost(bytes = "vec", tag = "3")]
    leaf_hash: Vec<u8>,
    #[prost(bytes = "vec", repeated, tag = "4")]
    aunts: Vec<Vec<u8>>,
}

#[derive(Clone, PartialEq, Message)]
struct RowProof {
    #[prost(bytes = "vec", repeated, tag = "1")]
    row_roots: Vec<Vec<u8>>,
    #[prost(message, repeated, tag = "2")]
    proofs: Vec<MerkleProof>,
    #[prost(bytes = "vec", tag = "3")]
    root: Vec<u8>,
    #[prost(uint32, tag = "4")]
    start_row: u32,
    #[prost(uint32, tag = "5")]
    end_row: u32,
}

#[derive(Clone, PartialEq, Message)]
struct ShareProof {
    #[prost(bytes = "vec", repeated, tag = "1")]
    data: Vec<Vec<u8>>,
    #[prost(message, repeated, tag = "2")]
    share_proofs: Vec<NmtProof>,
    #[prost(bytes = "vec", tag = "3")]
    namespace_id: Vec<u8>,
    #[prost(message, optional, tag = "4")]
    row_proof: Option<RowProof>,
    #[prost(uint32, tag = "5")]
    namespace_version: u32,
}

/// The fields of a message, without numbers that are 0 and single bytes that are none.
trait Told {
    fn told(&self) -> String;
}

fn number<N: Into<i128>>(n: u32, value: N) -> String {
    match value.into() {
        0 => String::new(),
        value => format!("{n}={value};"),
    }
}

fn each(n: u32, some: &[Vec<u8>]) -> String {
    some.iter().map(|data| format!("{n}={};", data.iter().map(|byte| format!("{byte:02x}")).collect::<String>())).collect()
}

fn bytes(n: u32, data: &Vec<u8>) -> String {
    if data.is_empty() { String::new() } else { each(n, std::slice::from_ref(data)) }
}

fn messages<'a, T: Told + 'a>(n: u32, some: impl IntoIterator<Item = &'a T>) -> String {
    some.into_iter().map(|one| format!("{n}{{{}}}", one.told())).collect()
}

impl Told for DataAvailabilityHeader {
    fn told(&self) -> String {
        each(1, &self.row_roots) + &each(2, &self.column_roots)
    }
}

impl Told for Header {
    fn told(&self) -> String {
        bytes(7, &self.data_hash)
    }
}

impl Told for ExtendedHeader {
    fn told(&self) -> String {
        messages(1, &self.header) + &messages(4, &self.dah)
    }
}

impl Told for Proof {
    fn told(&self) -> String {
        let front = number(1, self.start) + &number(2, self.end) + &each(3, &self.nodes);
        front + &bytes(4, &self.leaf_hash) + &number(5, self.is_max_namespace_ignored as u32)
    }
}

impl Told for Share {
    fn told(&self) -> String {
        bytes(1, &self.data)
    }
}

impl Told for Sample {
    fn told(&self) -> String {
        messages(1, &self.share) + &messages(2, &self.proof) + &number(3, self.proof_type)
    }
}

impl Told for RowNamespaceData {
    fn told(&self) -> String {
        messages(1, &self.shares) + &messages(2, &self.proof)
    }
}

impl Told for Row {
    fn told(&self) -> String {
        messages(1, &self.shares_half) + &number(2, self.half_side)
    }
}

impl Told for ShareWithProof {
    fn told(&self) -> String {
        bytes(1, &self.data) + &messages(2, &self.proof) + &number(3, self.proof_axis)
    }
}

impl Told for BadEncoding {
    fn told(&self) -> String {
        let front = bytes(1, &self.header_hash) + &number(2, self.height) + &messages(3, &self.shares);
        front + &number(4, self.index) + &number(5, self.axis)
    }
}

impl Told for NmtProof {
    fn told(&self) -> String {
        number(1, self.start) + &number(2, self.end) + &each(3, &self.nodes) + &bytes(4, &self.leaf_hash)
    }
}

impl Told for MerkleProof {
    fn told(&self) -> String {
        number(1, self.total) + &number(2, self.index) + &bytes(3, &self.leaf_hash) + &each(4, &self.aunts)
    }
}

impl Told for RowProof {
    fn told(&self) -> String {
        let front = each(1, &self.row_roots) + &messages(2, &self.proofs) + &bytes(3, &self.root);
        front + &number(4, self.start_row) + &number(5, self.end_row)
    }
}

impl Told for ShareProof {
    fn told(&self) -> String {
        let front = each(1, &self.data) + &messages(2, &self.share_proofs) + &bytes(3, &self.namespace_id);
        front + &messages(4, &self.row_proof) + &number(5, self.namespace_version)
    }
}

/// A message's line.
fn line<T: Message + Told + Default>(raw: &[u8]) -> String {
    match T::decode(raw) {
        Ok(found) => told(found.encode_to_vec() == raw, format!("{{{}}}", found.told())),
        Err(_) => "refused".to_string(),
    }
}

/// The line of messages, each behind its length.
fn stream(raw: &[u8]) -> String {
    let (mut text, mut again, mut rest) = (String::new(), Vec::new(), raw);
    while !rest.is_empty() {
        let Ok(found) = RowNamespaceData::decode_length_delimited(&mut rest) else {
            return "refused".to_string();
        };
        again.extend(found.encode_length_delimited_to_vec());
        text += &format!("{{{}}}", found.told());
    }
    told(again == raw, text)
}

fn told(is_same: bool, text: String) -> String {
    format!("{} {text}", if is_same { "same" } else { "other" })
}

fn main() {
    let words: Vec<String> = std::env::args().collect();
    let data = std::fs::read(&words[2]).expect("the file");
    let mut out = std::io::BufWriter::new(std::io::stdout().lock());
    let mut rest = &data[..];
    while !rest.is_empty() {
        let size = u32::from_be_bytes(rest[..4].try_into().expect("a length")) as usize;
        let raw = &rest[4..4 + size];
        rest = &rest[4 + size..];
        let line = match words[1].as_str() {
            "dah" => line::<DataAvailabilityHeader>(raw),
            "header" => line::<ExtendedHeader>(raw),
            "sample" => line::<Sample>(raw),
            "row-data" => line::<RowNamespaceData>(raw),
            "namespace-data" => stream(raw),
            "befp" => line::<BadEncoding>(raw),
            "row" => line::<Row>(raw),
            _ => line::<ShareProof>(raw),
        };
        writeln!(out, "{line}").expect("the output");
    }
}
