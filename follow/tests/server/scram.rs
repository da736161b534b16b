//! The server's side of SCRAM-SHA-256, by RFC 5802 and RFC 7677, written for the tests alone.
#![allow(dead_code)]
use hmac::{Hmac, Mac};
use sha2::{Digest, Sha256};

fn hmac(key: &[u8], parts: &[&[u8]]) -> Vec<u8> {
    let mut mac = Hmac::<Sha256>::new_from_slice(key).unwrap();
    parts.iter().for_each(|part| mac.update(part));
    mac.finalize().into_bytes().to_vec()
}

fn xor(one: &[u8], other: &[u8]) -> Vec<u8> {
    one.iter().zip(other).map(|(a, b)| a ^ b).collect()
}

/// One exchange.
pub struct Scram {
    password: Vec<u8>,
    iterations: u32,
    salt: Vec<u8>,
    /// The first message of the client without its header, and the server's.
    bare: String,
    first: String,
}

impl Scram {
    pub fn new(password: &str, iterations: u32) -> Scram {
        Scram { password: password.into(), iterations, salt: b"salt of a test".to_vec(), bare: String::new(), first: String::new() }
    }

    /// The payload of an authentication request: a code and what follows it.
    pub fn request(code: u8, rest: &[u8]) -> Vec<u8> {
        [&[0, 0, 0, code], rest].concat()
    }

    /// Takes the payload of a SASLInitialResponse; answers its mechanism, its header and the server's first message.
    pub fn first(&mut self, initial: &[u8]) -> (String, String, String) {
        let end = initial.iter().position(|byte| *byte == 0).unwrap();
        let mechanism = String::from_utf8(initial[..end].to_vec()).unwrap();
        let length = u32::from_be_bytes(initial[end + 1..end + 5].try_into().unwrap()) as usize;
        assert_eq!(initial.len(), end + 5 + length);
        let text = String::from_utf8(initial[end + 5..].to_vec()).unwrap();
        let at = text.match_indices(',').nth(1).unwrap().0 + 1;
        self.bare = text[at..].to_string();
        let nonce = self.bare.split(',').find_map(|part| part.strip_prefix("r=")).unwrap();
        self.first = format!("r={nonce}ofTheServer,s={},i={}", base64::encode(&self.salt), self.iterations);
        (mechanism, text[..at].to_string(), self.first.clone())
    }

    /// Takes the payload of a SASLResponse; answers whether the proof is good, and the server's final message.
    pub fn last(&self, response: &[u8]) -> (bool, String) {
        let text = std::str::from_utf8(response).unwrap();
        let (without, proof) = text.rsplit_once(",p=").unwrap();
        let message = format!("{},{},{without}", self.bare, self.first);
        let salted = self.salted();
        let client_key = hmac(&salted, &[b"Client Key"]);
        let stored = Sha256::digest(&client_key);
        let proved = xor(&base64::decode(proof).unwrap(), &hmac(&stored, &[message.as_bytes()])) == client_key;
        let signature = hmac(&hmac(&salted, &[b"Server Key"]), &[message.as_bytes()]);
        (proved, format!("v={}", base64::encode(signature)))
    }

    fn salted(&self) -> Vec<u8> {
        let mut last = hmac(&self.password, &[&self.salt, &[0, 0, 0, 1]]);
        let mut sum = last.clone();
        for _ in 1..self.iterations {
            last = hmac(&self.password, &[&last]);
            sum = xor(&sum, &last);
        }
        sum
    }
}
