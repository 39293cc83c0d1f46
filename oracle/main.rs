//! Answers lines of the line format (docs/FORMAT.md) by the ported Rust crate's own crypto files, unchanged.
//! The files come from a path that `build` is given; what they use of the crate's other modules stands in here.
//! Answers are coarser than ours where the crate says less: a refusal is the name of its error, and a tag is
//! `plain` where the bytes are passed on, be it None or unresolved.
#![allow(dead_code)]

extern crate alloc;

#[path = "crypto/aes.rs"]
mod aes;
mod crypto;
#[path = "crypto/md5.rs"]
mod md5;
#[path = "crypto/rc4.rs"]
mod rc4;

/// Stand-ins for the dictionary types.
mod object {
    use std::ops::Deref;

    #[derive(Clone)]
    pub enum Value {
        Name(Vec<u8>),
        String(Vec<u8>),
        Number(i64),
        Bool(bool),
        Dict(Vec<(Vec<u8>, Value)>),
    }

    pub struct Dict<'a> {
        pub entries: Vec<(Vec<u8>, Value)>,
        pub life: core::marker::PhantomData<&'a ()>,
    }

    pub struct Name<'a>(Vec<u8>, core::marker::PhantomData<&'a ()>);

    impl Name<'_> {
        pub fn as_str(&self) -> &str {
            core::str::from_utf8(&self.0).unwrap_or("{non-ascii key}")
        }
    }

    impl AsRef<[u8]> for Name<'_> {
        fn as_ref(&self) -> &[u8] {
            &self.0
        }
    }

    impl Deref for Name<'_> {
        type Target = [u8];
        fn deref(&self) -> &[u8] {
            &self.0
        }
    }

    pub struct String<'a>(Vec<u8>, core::marker::PhantomData<&'a ()>);

    impl AsRef<[u8]> for String<'_> {
        fn as_ref(&self) -> &[u8] {
            &self.0
        }
    }

    impl Deref for String<'_> {
        type Target = [u8];
        fn deref(&self) -> &[u8] {
            &self.0
        }
    }

    pub trait FromValue: Sized {
        fn from_value(v: &Value) -> Option<Self>;
    }

    macro_rules! number {
        ($t:ty) => {
            impl FromValue for $t {
                fn from_value(v: &Value) -> Option<Self> {
                    match v {
                        Value::Number(n) => <$t>::try_from(*n).ok(),
                        _ => None,
                    }
                }
            }
        };
    }
    number!(u8);
    number!(u16);
    number!(i64);

    impl FromValue for bool {
        fn from_value(v: &Value) -> Option<Self> {
            match v {
                Value::Bool(b) => Some(*b),
                _ => None,
            }
        }
    }

    impl FromValue for Name<'_> {
        fn from_value(v: &Value) -> Option<Self> {
            match v {
                Value::Name(n) => Some(Name(n.clone(), core::marker::PhantomData)),
                _ => None,
            }
        }
    }

    impl FromValue for String<'_> {
        fn from_value(v: &Value) -> Option<Self> {
            match v {
                Value::String(n) => Some(String(n.clone(), core::marker::PhantomData)),
                _ => None,
            }
        }
    }

    impl FromValue for Dict<'_> {
        fn from_value(v: &Value) -> Option<Self> {
            match v {
                Value::Dict(e) => Some(Dict { entries: e.clone(), life: core::marker::PhantomData }),
                _ => None,
            }
        }
    }

    impl<'a> Dict<'a> {
        pub fn get<T: FromValue>(&self, key: impl AsRef<[u8]>) -> Option<T> {
            let (_, v) = self.entries.iter().find(|(k, _)| k.as_slice() == key.as_ref())?;
            T::from_value(v)
        }

        pub fn keys(&self) -> impl Iterator<Item = Name<'a>> + '_ {
            self.entries.iter().map(|(k, _)| Name(k.clone(), core::marker::PhantomData))
        }
    }

    pub struct ObjectIdentifier {
        pub obj_number: i32,
        pub gen_number: i32,
    }

    pub mod dict {
        pub mod keys {
            pub const CF: &[u8] = b"CF";
            pub const CFM: &[u8] = b"CFM";
            pub const ENCRYPT_META_DATA: &[u8] = b"EncryptMetadata";
            pub const FILTER: &[u8] = b"Filter";
            pub const LENGTH: &[u8] = b"Length";
            pub const O: &[u8] = b"O";
            pub const OE: &[u8] = b"OE";
            pub const P: &[u8] = b"P";
            pub const R: &[u8] = b"R";
            pub const STM_F: &[u8] = b"StmF";
            pub const STR_F: &[u8] = b"StrF";
            pub const U: &[u8] = b"U";
            pub const UE: &[u8] = b"UE";
            pub const V: &[u8] = b"V";
        }
    }
}

mod sync {
    pub use std::collections::HashMap;
}

use object::Value;
use std::collections::HashMap;
use std::io::{BufRead, Write};

type Pairs<'a> = HashMap<&'a str, &'a str>;

fn unhex(s: &str) -> Vec<u8> {
    (0..s.len() / 2).map(|i| u8::from_str_radix(&s[2 * i..2 * i + 2], 16).unwrap()).collect()
}

fn hex(b: &[u8]) -> String {
    b.iter().map(|x| format!("{x:02x}")).collect()
}

fn bytes(p: &Pairs, k: &str) -> Vec<u8> {
    p.get(k).map(|s| unhex(s)).unwrap_or_default()
}

fn dictionary(p: &Pairs) -> object::Dict<'static> {
    let mut e: Vec<(Vec<u8>, Value)> = Vec::new();
    for (k, name) in [("filter", "Filter"), ("stmf", "StmF"), ("strf", "StrF")] {
        if let Some(s) = p.get(k) {
            e.push((name.into(), Value::Name(unhex(s))));
        }
    }
    for (k, name) in [("o", "O"), ("u", "U")] {
        if let Some(s) = p.get(k) {
            e.push((name.into(), Value::String(unhex(s))));
        }
    }
    for (k, name) in [("v", "V"), ("r", "R"), ("length", "Length"), ("p", "P")] {
        if let Some(s) = p.get(k) {
            e.push((name.into(), Value::Number(s.parse().unwrap())));
        }
    }
    if let Some(s) = p.get("em") {
        e.push((b"EncryptMetadata".to_vec(), Value::Bool(*s == "1")));
    }
    let block = bytes(p, "cfb");
    let mut filters: Vec<(Vec<u8>, Value)> = Vec::new();
    for entry in p.get("cfe").copied().unwrap_or("").split(',').filter(|s| !s.is_empty()) {
        let n: Vec<usize> = entry.split(':').map(|s| s.parse().unwrap()).collect();
        let part = |at: usize, len: usize| block[at.min(block.len())..(at + len).min(block.len())].to_vec();
        let mut filter = Vec::new();
        if n[3] > 0 {
            filter.push((b"CFM".to_vec(), Value::Name(part(n[2], n[3]))));
        }
        filters.push((part(n[0], n[1]), Value::Dict(filter)));
    }
    e.push((b"CF".to_vec(), Value::Dict(filters)));
    object::Dict { entries: e, life: core::marker::PhantomData }
}

fn open(p: &Pairs) -> Result<crypto::Decryptor, String> {
    crypto::get(&dictionary(p), &bytes(p, "id"), &bytes(p, "pw")).map_err(|e| format!("{e:?}"))
}

/// The tag behind a name of `DecryptorTag`, as the crate's `Debug` writes it.
fn tag(name: &str) -> &'static str {
    match name {
        "Rc4" => "V2",
        "Aes128" => "AESV2",
        "Aes256" => "AESV3",
        _ => "plain",
    }
}

/// Key and tags; the fields of `DecryptorData` are private, so they are read off what `Debug` writes.
fn opened(d: &crypto::Decryptor) -> String {
    match d {
        crypto::Decryptor::None => "ok none".into(),
        crypto::Decryptor::Rc4 { key } => format!("ok key={} str=V2 stm=V2", hex(key)),
        crypto::Decryptor::Aes128 { key, dict } | crypto::Decryptor::Aes256 { key, dict } => {
            let text = format!("{dict:?}");
            let of = |name: &str| {
                let rest = &text[text.find(name).unwrap()..];
                let rest = &rest[rest.find("cfm: ").unwrap() + 5..];
                tag(&rest[..rest.find(',').unwrap()])
            };
            format!("ok key={} str={} stm={}", hex(key), of("string_filter"), of("stream_filter"))
        }
    }
}

fn block16(p: &Pairs, k: &str) -> [u8; 16] {
    bytes(p, k).try_into().unwrap()
}

fn cipher<const K: usize, const R: usize>(op: &str, p: &Pairs, c: Option<aes::AESCipher<K, R>>) -> String {
    let Some(c) = c else { return "none".into() };
    let out = match op {
        "enc" => c.encrypt_block(&block16(p, "block")).to_vec(),
        "dec" => c.decrypt_block(&block16(p, "block")).to_vec(),
        "cbcenc" => c.encrypt_cbc(&bytes(p, "data"), &block16(p, "iv")),
        _ => c.decrypt_cbc(&bytes(p, "data"), &block16(p, "iv"), p["unpad"] == "1"),
    };
    format!("ok out={}", hex(&out))
}

fn answer(line: &str) -> String {
    let mut words = line.split(' ');
    let op = words.next().unwrap();
    let p: Pairs = words.filter_map(|w| w.split_once('=')).collect();
    let joined = || p["data"].split(',').flat_map(unhex).collect::<Vec<u8>>();
    match op {
        "md5" => format!("ok out={}", hex(&md5::calculate(&joined()))),
        "rc4" => match bytes(&p, "key") {
            key if key.is_empty() => "none".into(),
            key => format!("ok out={}", hex(&rc4::Rc4::new(&key).decrypt(&joined()))),
        },
        "aes128enc" | "aes128dec" => cipher(&op[6..], &p, aes::AES128Cipher::new(&bytes(&p, "key"))),
        "aes256enc" | "aes256dec" => cipher(&op[6..], &p, aes::AES256Cipher::new(&bytes(&p, "key"))),
        "cbc128enc" | "cbc128dec" => {
            cipher(&format!("cbc{}", &op[6..]), &p, aes::AES128Cipher::new(&bytes(&p, "key")))
        }
        "cbc256enc" | "cbc256dec" => {
            cipher(&format!("cbc{}", &op[6..]), &p, aes::AES256Cipher::new(&bytes(&p, "key")))
        }
        "open" => match open(&p) {
            Ok(d) => opened(&d),
            Err(e) => e,
        },
        "restore" => match open(&p) {
            Err(e) => e,
            Ok(d) => {
                let id = object::ObjectIdentifier {
                    obj_number: p["obj"].parse().unwrap(),
                    gen_number: p["gen"].parse().unwrap(),
                };
                let target = match p["target"] {
                    "0" => crypto::DecryptionTarget::String,
                    _ => crypto::DecryptionTarget::Stream,
                };
                match d.decrypt(id, &bytes(&p, "data"), target) {
                    Some(out) => format!("ok out={}", hex(&out)),
                    None => "None".into(),
                }
            }
        },
        _ => "not compared".into(),
    }
}

fn main() {
    let out = std::io::stdout();
    let mut out = std::io::BufWriter::new(out.lock());
    for line in std::io::stdin().lock().lines() {
        writeln!(out, "{}", answer(&line.unwrap())).unwrap();
    }
}
