//! What others get than the page.

use crate::page::{folder, Page, NOTHING, SOURCE};
use std::io::Write;
use std::net::TcpStream;
use std::time::{Duration, Instant};

#[test]
fn others_get_nothing() {
    let folder = folder();
    let page = Page::of(&folder);
    let (host, own) = (page.host.as_str(), format!("/{}/", page.token));
    let origin = format!("http://{host}");
    let get = |path: &str, headers: &[(&str, &str)]| page.status("GET", path, headers);
    assert_eq!(get(&own, &[("Host", host)]), 200);
    assert_eq!(get(&own, &[("Host", host), ("Origin", &origin)]), 200);
    let wrong = format!("/{}/", "0".repeat(32));
    for path in ["/", "/favicon.ico", wrong.as_str(), &own[..20], &format!("/{own}")] {
        assert_eq!(get(path, &[("Host", host)]), 403, "{path}");
    }
    let told = page.sent(format!("GET {wrong} HTTP/1.1\r\nHost: {host}\r\n\r\n").as_bytes());
    assert!(told.contains("this is the token of another page"), "{told}");
    let told = page.sent(format!("GET / HTTP/1.1\r\nHost: {host}\r\n\r\n").as_bytes());
    assert!(told.contains("the address lacks its token"), "{told}");
    let port = host.split(':').nth(1).unwrap();
    for other in [format!("localhost:{port}"), "evil.example".into(), "127.0.0.1".into()] {
        assert_eq!(get(&own, &[("Host", &other)]), 403, "{other}");
    }
    assert_eq!(get(&own, &[]), 403);
    for other in ["http://evil.example", "null", "https://evil.example", "http://127.0.0.1"] {
        assert_eq!(get(&own, &[("Host", host), ("Origin", other)]), 403, "{other}");
    }
    let post = |headers: &[(&str, &str)]| page.status("POST", &format!("{own}told"), headers);
    assert_eq!(post(&[("Host", host), ("Content-Length", "0")]), 403);
    let named = [("Host", host), ("Origin", origin.as_str()), ("Content-Length", "0")];
    assert_eq!(post(&named), 400);
    assert_eq!(page.status("DELETE", &own, &named), 405);
    assert_eq!(page.status("GET", &format!("{own}told"), &named[..1]), 405);
    assert_eq!(page.status("GET", &format!("{own}../etc"), &named[..1]), 404);
}

#[test]
fn hostile_clients() {
    let folder = folder();
    let page = Page::of(&folder);
    let (host, token) = (&page.host, &page.token);
    // A client that is slow keeps nobody else waiting.
    let mut slow: Vec<TcpStream> = (0..8).map(|_| TcpStream::connect(host).unwrap()).collect();
    slow.iter_mut().for_each(|stream| stream.write_all(b"POST /").unwrap());
    let began = Instant::now();
    let line = format!("GET /{} HTTP/1.1\r\n\r\n", "a".repeat(1 << 20));
    assert!(page.sent(line.as_bytes()).starts_with("HTTP/1.1 414 "));
    let head = format!("POST /{token}/told HTTP/1.1\r\nHost: {host}\r\nOrigin: http://{host}\r\n");
    let lies = format!("{head}Content-Length: 5000\r\n\r\n{{}}");
    assert!(page.sent(lies.as_bytes()).starts_with("HTTP/1.1 400 "));
    let large = format!("{head}Content-Length: 99999999999\r\n\r\n{{}}");
    assert!(page.sent(large.as_bytes()).starts_with("HTTP/1.1 413 "));
    for body in ["", "{}", "[[", "\u{1}", &"[".repeat(100_000), "{\"source\":1}"] {
        let request = format!("{head}Content-Length: {}\r\n\r\n{body}", body.len());
        assert!(page.sent(request.as_bytes()).starts_with("HTTP/1.1 400 "), "{:.20}", body);
    }
    assert!(page.told(SOURCE, "[]", 0, NOTHING).contains("\"moment\":0"));
    // So many at a time are too many, until they are gone.
    let idle: Vec<TcpStream> = (0..40).map(|_| TcpStream::connect(host).unwrap()).collect();
    let get = format!("GET /{token}/ HTTP/1.1\r\nHost: {host}\r\n\r\n");
    assert!(!page.sent(get.as_bytes()).starts_with("HTTP/1.1 200 "));
    drop(idle);
    while !page.sent(get.as_bytes()).starts_with("HTTP/1.1 200 ") {
        assert!(began.elapsed() < Duration::from_secs(9));
    }
    assert!(began.elapsed() < Duration::from_secs(9));
}
