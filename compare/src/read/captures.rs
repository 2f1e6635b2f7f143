//! Hellos that real programs sent. Both sides must read each as tshark does, but for two that document 01 refuses: of these the
//! original reads one and panics at the other.

use super::question::{refused, Answer, Question};
use super::seen::Seen;
use crate::captures::Greeting;
use crate::noise::quic::fingerprint::Fingerprint;
use crate::sides::Ask;
use crate::tally::Tally;

/// No extension block; more than 64 suites, which the original reads.
const WITHOUT_BLOCK: (&str, u64) = ("tcp-sslscan", 19);
const MANY_SUITES: (&str, u64) = ("tcp-mbedtls", 23);

pub(super) fn check(tally: &mut Tally, greetings: &[Greeting]) {
    let mut read = 0;
    for greeting in greetings {
        let question = Question::new(&greeting.hello);
        let known = fingerprint(&greeting.fields);
        let refusal = [WITHOUT_BLOCK, MANY_SUITES]
            .into_iter()
            .find(|(name, _)| *name == greeting.name);
        let rust = match refusal {
            Some(WITHOUT_BLOCK) => Seen(None),
            _ => Seen(Some(fingerprint(&greeting.fields))),
        };
        tally.expect(&question, "Rust", &rust, &Seen::by_rust(&greeting.hello));
        match refusal {
            Some((_, number)) => {
                tally.expect(
                    &question,
                    "ours",
                    &refused(number),
                    &question.texts_by_ours(),
                );
            }
            None => {
                read += 1;
                tally.expect(&question, "ours", &Answer::of(known), &question.by_ours());
            }
        }
    }
    let others = greetings.len() - read;
    println!("captures: {read} hellos for ours to read as tshark does, and {others} to refuse");
}

/// What tshark saw, from its JSON. No string in these files has an escape in it.
fn fingerprint(json: &str) -> Fingerprint {
    let numbers = |field| items(value(json, field)).map(number).collect();
    let extensions: Vec<u16> = numbers("extensions");
    // tshark reads those of QUIC's drafts too, in extension ffa5, which neither side does
    let has_parameters = extensions.contains(&0x0039);
    Fingerprint {
        legacy_session_id_len: number(value(json, "session_id_len")),
        cipher_suites: numbers("cipher_suites"),
        extensions,
        supported_groups: numbers("supported_groups"),
        key_share_groups: numbers("key_share_groups"),
        signature_algorithms: numbers("signature_algorithms"),
        supported_versions: numbers("supported_versions"),
        alpn: items(value(json, "alpn")).map(string).collect(),
        sni: Some(value(json, "sni"))
            .filter(|sni| *sni != "null")
            .map(string),
        transport_param_ids: if has_parameters {
            ids(json)
        } else {
            Vec::new()
        },
    }
}

/// The text after a field's name: a list up to its end, or anything else up to the next comma.
fn value<'a>(json: &'a str, field: &str) -> &'a str {
    let (_, rest) = json
        .split_once(&format!("\"{field}\": "))
        .unwrap_or_else(|| panic!("no {field} in the JSON"));
    let end = if rest.starts_with('[') { ']' } else { ',' };
    rest.split(end).next().unwrap_or("")
}

/// The items of a list whose last bracket is cut off.
fn items(list: &str) -> impl Iterator<Item = &str> {
    list.trim_start_matches('[')
        .split(',')
        .map(str::trim)
        .filter(|item| !item.is_empty())
}

/// The ids of the parameters: they are the only fields of that name.
fn ids(json: &str) -> Vec<u64> {
    let after = json.split("\"id\": ").skip(1);
    after
        .map(|rest| number(rest.split(',').next().unwrap_or("")))
        .collect()
}

fn number<T: std::str::FromStr>(text: &str) -> T {
    text.parse().unwrap_or_else(|_| panic!("no number: {text}"))
}

fn string(text: &str) -> String {
    text.trim_matches('"').to_string()
}
