//! The layers in front of a service in Rust, with no crates. usage: layers PORT QUERIES
//! rustc -O layers.rs -L FOLDER -l static=nutscythe
//! Each object of a raw call is a pointer and the number 1.
use std::net::{IpAddr, UdpSocket};
use std::time::{Duration, SystemTime, UNIX_EPOCH};

#[repr(C)]
struct Handle(*mut u8);

#[repr(C)]
struct Origin {
    at: u64,
    secs: u64,
    size: u64,
    octets: [u8; 16],
    port: u16,
    family: u8,
    over: u8,
}

#[repr(C)]
#[derive(Clone, Copy, Default)]
struct Rule {
    numbers: [u16; 3],
    flags: [u8; 6],
}

extern "C" {
    fn nutscythe_raw_settings_new(strict: bool, edns: bool, settings: *mut Handle, handles: usize) -> u32;
    fn nutscythe_raw_free(handle: *mut Handle, handles: usize) -> u32;
    fn nutscythe_raw_datagram(
        settings: *mut Handle, handles: usize, origin: *const Origin, origins: usize, verdict: u32, datagram: *const u8,
        len: usize, reply: *mut u8, room: usize, reply_len: *mut usize, lens: usize, rule: *mut Rule, rules: usize,
    ) -> u32;
    fn nutscythe_raw_rewrite(
        rule: *const Rule, rules: usize, answer: *const u8, len: usize, reply: *mut u8, room: usize,
        reply_len: *mut usize, lens: usize,
    ) -> u32;
}

/// REFUSED to whatever is asked.
fn serve(message: &[u8]) -> Vec<u8> {
    let mut answer = message[..12].to_vec();
    answer[2] |= 0x80;
    answer[3] = 5;
    answer[4..12].fill(0);
    answer
}

/// The octets to send for a datagram, if some are.
fn answer(settings: &mut Handle, origin: &Origin, message: &[u8], reply: &mut [u8]) -> Option<usize> {
    let (mut reply_len, mut rule) = (0, Rule::default());
    let (octets, room) = (reply.as_mut_ptr(), reply.len());
    let mut status = unsafe {
        nutscythe_raw_datagram(
            settings, 1, origin, 1, 1, message.as_ptr(), message.len(), octets, room, &mut reply_len, 1, &mut rule, 1,
        )
    };
    if status == 3 {
        let made = serve(message);
        status = unsafe { nutscythe_raw_rewrite(&rule, 1, made.as_ptr(), made.len(), octets, room, &mut reply_len, 1) };
    }
    (status == 1).then_some(reply_len)
}

fn main() -> std::io::Result<()> {
    let words: Vec<String> = std::env::args().collect();
    let link = UdpSocket::bind(("127.0.0.1", words[1].parse::<u16>().unwrap()))?;
    link.set_read_timeout(Some(Duration::from_secs(10)))?;
    let mut settings = Handle(std::ptr::null_mut());
    assert_eq!(unsafe { nutscythe_raw_settings_new(true, true, &mut settings, 1) }, 0);
    let (mut message, mut reply) = ([0u8; 65535], [0u8; 65535]);
    for _ in 0..words[2].parse::<u32>().unwrap() {
        let (len, from) = match link.recv_from(&mut message) {
            Ok(came) => came,
            Err(_) => break,
        };
        let now = SystemTime::now().duration_since(UNIX_EPOCH).unwrap();
        let mut octets = [0; 16];
        if let IpAddr::V4(ip) = from.ip() {
            octets[..4].copy_from_slice(&ip.octets());
        }
        let (at, secs) = (now.as_millis() as u64, now.as_secs());
        let origin = Origin { at, secs, size: 0, octets, port: from.port(), family: 4, over: 0 };
        if let Some(reply_len) = answer(&mut settings, &origin, &message[..len], &mut reply) {
            link.send_to(&reply[..reply_len], from)?;
        }
    }
    unsafe { nutscythe_raw_free(&mut settings, 1) };
    Ok(())
}
