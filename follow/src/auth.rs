//! Authentication: what each request of the server is answered with.
use crate::conninfo::{ChannelBinding, Conninfo, Method};
use crate::failure::{Failure, FAILED};
use bytes::BytesMut;
use postgres_protocol::authentication::md5_hash;
use postgres_protocol::authentication::sasl::{self, ScramSha256, SCRAM_SHA_256, SCRAM_SHA_256_PLUS};
use postgres_protocol::message::frontend;
use rufflesquash::AuthRequest;
use std::mem;

/// What is to be done after a request.
#[derive(Debug, PartialEq)]
pub enum Step {
    Send(BytesMut),
    /// The server goes on by itself.
    Wait,
    /// A password is needed, and none is known.
    Password,
    /// The server has let us in.
    Done,
}

enum State {
    Begun,
    /// A password was sent, and its method.
    Sent(&'static str),
    /// The first message of SCRAM was sent; whether with channel binding.
    First(ScramSha256, bool),
    /// Our proof was sent, and the server's is awaited.
    Proof(ScramSha256, bool),
    /// The server has proved that it knows the password.
    Proved(bool),
    Failed,
}

/// What a connection is, as far as passwords go.
pub struct Channel {
    pub tls: bool,
    /// Whether it is a Unix socket, on which nobody else reads.
    pub unix: bool,
    /// The hash of the server's certificate, where it has one that channel binding takes.
    pub end_point: Option<Vec<u8>>,
}

/// One authentication.
pub struct Auth<'a> {
    conninfo: &'a Conninfo,
    password: Option<&'a [u8]>,
    channel: Channel,
    state: State,
}

impl<'a> Auth<'a> {
    pub fn new(conninfo: &'a Conninfo, password: Option<&'a [u8]>, channel: Channel) -> Auth<'a> {
        Auth { conninfo, password: password.filter(|password| !password.is_empty()), channel, state: State::Begun }
    }

    /// Whether anything that proves the user went to the server.
    pub fn begun(&self) -> bool {
        !matches!(self.state, State::Begun)
    }

    /// How the user was let in, for --verbose.
    pub fn method(&self) -> &'static str {
        match self.state {
            State::Sent(method) => method,
            State::Proved(true) => "SCRAM-SHA-256 with channel binding",
            State::Proved(false) => "SCRAM-SHA-256",
            _ => "no password asked for",
        }
    }

    /// Takes a request's payload.
    pub fn request(&mut self, payload: &[u8]) -> Result<Step, Failure> {
        let request = AuthRequest::parse(payload).map_err(|_| malformed())?;
        self.check_method(request.code)?;
        match (request.code, mem::replace(&mut self.state, State::Failed)) {
            (0, state) => self.done(state),
            (3, State::Begun) => self.send_password("a password in clear", |password| password.to_vec()),
            (5, State::Begun) => {
                let salt = <[u8; 4]>::try_from(request.rest).map_err(|_| malformed())?;
                let user = self.conninfo.user.as_str();
                self.send_password("an MD5 password", |password| md5_hash(user.as_bytes(), password, salt).into_bytes())
            }
            (10, State::Begun) => self.scram_first(request.rest),
            (11, State::First(scram, bound)) => self.scram_proof(scram, bound, request.rest),
            (12, State::Proof(scram, bound)) => self.scram_proved(scram, bound, request.rest),
            (2, _) => Err(unknown("Kerberos V5")),
            (6, _) => Err(unknown("SCM credentials")),
            (7 | 8, _) => Err(unknown("GSSAPI (Kerberos)")),
            (9, _) => Err(unknown("SSPI")),
            (3 | 5 | 10..=12, _) => Err(malformed()),
            (code, _) => Err(unknown(&format!("method {code}"))),
        }
    }

    // Whether the user takes this way to log in. A password in clear is what the server, or who seems to be it, could use elsewhere.
    fn check_method(&self, code: i32) -> Result<(), Failure> {
        let (method, name) = match code {
            0 if matches!(self.state, State::Begun) => (Method::None, "no password"),
            3 => (Method::Password, "a password in clear"),
            5 => (Method::Md5, "an MD5 password"),
            10 => (Method::Scram, "SCRAM-SHA-256"),
            _ => return Ok(()),
        };
        let require = &self.conninfo.require_auth;
        if !require.takes(method) {
            return Err(Failure::new(FAILED, format!("the server asks for {name}, which require_auth does not take")));
        }
        if method == Method::Password && !self.channel.tls && !self.channel.unix && !require.names(method) {
            let advice = "set scram-sha-256 in the server's pg_hba.conf, or use sslmode=verify-full; require_auth=password sends it all the same";
            return Err(Failure::new(FAILED, format!("the server asks for the password in clear, on a connection without TLS: {advice}")));
        }
        Ok(())
    }

    fn done(&mut self, state: State) -> Result<Step, Failure> {
        match state {
            State::First(..) | State::Proof(..) | State::Failed => {
                Err(Failure::new(FAILED, "the server left out the proof that it knows the password: it is not the server that it seems to be"))
            }
            State::Proved(true) => {
                self.state = State::Proved(true);
                Ok(Step::Done)
            }
            state if self.conninfo.channel_binding == ChannelBinding::Require => Err(unbound(match state {
                State::Begun => "no password",
                _ => "a method",
            })),
            state => {
                self.state = state;
                Ok(Step::Done)
            }
        }
    }

    fn send_password(&mut self, method: &'static str, answer: impl FnOnce(&[u8]) -> Vec<u8>) -> Result<Step, Failure> {
        if self.conninfo.channel_binding == ChannelBinding::Require {
            return Err(unbound(method));
        }
        let Some(password) = self.password else { return Ok(Step::Password) };
        let mut out = BytesMut::new();
        frontend::password_message(&answer(password), &mut out).map_err(|_| unsendable())?;
        self.state = State::Sent(method);
        Ok(Step::Send(out))
    }

    // The server names the mechanisms that it offers; the best that is allowed here is taken.
    fn scram_first(&mut self, names: &[u8]) -> Result<Step, Failure> {
        let offers = |mechanism: &str| names.split(|byte| *byte == 0).any(|name| name == mechanism.as_bytes());
        let (plain, plus) = (offers(SCRAM_SHA_256), offers(SCRAM_SHA_256_PLUS));
        if plus && !self.channel.tls {
            let line = "the server offers channel binding on a connection without TLS: somebody may stand between; use sslmode=verify-full";
            return Err(Failure::new(FAILED, line));
        }
        let able = self.channel.end_point.clone().filter(|_| self.conninfo.channel_binding != ChannelBinding::Disable);
        let (bound, binding) = match able {
            Some(hash) if plus => (true, sasl::ChannelBinding::tls_server_end_point(hash)),
            // This says that the server did not offer it: a server that did then knows that somebody took the offer away.
            Some(_) => (false, sasl::ChannelBinding::unrequested()),
            None => (false, sasl::ChannelBinding::unsupported()),
        };
        if self.conninfo.channel_binding == ChannelBinding::Require && !bound {
            return Err(unbound(if self.channel.tls { "SCRAM-SHA-256 alone" } else { "SCRAM-SHA-256 without TLS" }));
        }
        if !bound && !plain {
            return Err(Failure::new(
                FAILED,
                "the server offers SASL without SCRAM-SHA-256, which follow needs: set scram-sha-256 in the server's pg_hba.conf",
            ));
        }
        let Some(password) = self.password else { return Ok(Step::Password) };
        let scram = ScramSha256::new(password, binding);
        let mut out = BytesMut::new();
        let mechanism = if bound { SCRAM_SHA_256_PLUS } else { SCRAM_SHA_256 };
        frontend::sasl_initial_response(mechanism, scram.message(), &mut out).map_err(|_| unsendable())?;
        self.state = State::First(scram, bound);
        Ok(Step::Send(out))
    }

    fn scram_proof(&mut self, mut scram: ScramSha256, bound: bool, message: &[u8]) -> Result<Step, Failure> {
        let (least, most) = self.conninfo.scram_iterations;
        let count = iterations(message).ok_or_else(malformed)?;
        if count < least || count > most {
            let line = format!("the server asks for {count} iterations of SCRAM-SHA-256; {least} to {most} are taken (--scram-iterations)");
            return Err(Failure::new(FAILED, line));
        }
        scram.update(message).map_err(|_| malformed())?;
        let mut out = BytesMut::new();
        frontend::sasl_response(scram.message(), &mut out).map_err(|_| unsendable())?;
        self.state = State::Proof(scram, bound);
        Ok(Step::Send(out))
    }

    fn scram_proved(&mut self, mut scram: ScramSha256, bound: bool, message: &[u8]) -> Result<Step, Failure> {
        scram.finish(message).map_err(|_| {
            let line = "the server could not prove that it knows the password (SCRAM-SHA-256): it is not the server that it seems to be";
            Failure::new(FAILED, line)
        })?;
        self.state = State::Proved(bound);
        Ok(Step::Wait)
    }
}

fn iterations(message: &[u8]) -> Option<u32> {
    let text = std::str::from_utf8(message).ok()?;
    text.split(',').find_map(|part| part.strip_prefix("i="))?.parse().ok()
}

fn malformed() -> Failure {
    Failure::new(FAILED, "the server's request for authentication is not what the protocol says: is this a PostgreSQL server?")
}

fn unsendable() -> Failure {
    Failure::new(FAILED, "the password cannot be sent: it holds a zero byte, or is too long")
}

fn unknown(method: &str) -> Failure {
    let advice = "set scram-sha-256 or cert for this user in the server's pg_hba.conf";
    Failure::new(FAILED, format!("the server asks for {method}, which follow does not speak: {advice}"))
}

fn unbound(method: &str) -> Failure {
    let advice = "the server needs TLS and scram-sha-256 in pg_hba.conf for it, or set channel_binding=prefer";
    Failure::new(FAILED, format!("channel_binding=require, but the server asks for {method}: {advice}"))
}
