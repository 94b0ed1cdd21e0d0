//! Requests as a hostile client may send them.

use super::*;

/// Sends bytes piece by piece, each after a pause, and gives the first line of the
/// answer. `close` ends the sending; else the client waits.
fn sent(pieces: &[&[u8]], pause: Duration, close: bool) -> String {
    let listener = TcpListener::bind("127.0.0.1:0").unwrap();
    let address = listener.local_addr().unwrap();
    let server = thread::spawn(move || {
        let (stream, _) = listener.accept().unwrap();
        let told = |request: &Request| {
            let body = String::from_utf8_lossy(&request.body);
            Response::plain(OK, &format!("{} {} {body}", request.method, request.target))
        };
        let _ = answer(&stream, Duration::from_millis(300), &told);
    });
    let mut client = TcpStream::connect(address).unwrap();
    for piece in pieces {
        // The server may have answered and gone.
        let _ = client.write_all(piece);
        thread::sleep(pause);
    }
    if close {
        let _ = client.shutdown(Shutdown::Write);
    }
    let mut said = Vec::new();
    let _ = client.read_to_end(&mut said);
    drop(client);
    server.join().unwrap();
    let said = String::from_utf8_lossy(&said).into_owned();
    let last = said.rsplit("\r\n\r\n").next().unwrap_or("").trim_end().to_string();
    let first = said.lines().next().unwrap_or("nothing").to_string();
    if first.ends_with("200 OK") {
        last
    } else {
        first
    }
}

fn whole(text: &str) -> String {
    sent(&[text.as_bytes()], Duration::ZERO, false)
}

#[test]
fn requests_are_read() {
    assert_eq!(whole("GET /a?b HTTP/1.1\r\nHost: x\r\n\r\n"), "GET /a?b");
    assert_eq!(whole("POST /a HTTP/1.1\r\nContent-Length: 3\r\n\r\nabc"), "POST /a abc");
    let slowly: Vec<&[u8]> = "GET / HTTP/1.0\r\n\r\n".as_bytes().chunks(5).collect();
    assert_eq!(sent(&slowly, Duration::from_millis(5), false), "GET /");
}

#[test]
fn long_lines_heads_and_bodies() {
    let line = format!("GET /{} HTTP/1.1\r\n\r\n", "a".repeat(1 << 20));
    assert_eq!(whole(&line), "HTTP/1.1 414 URI Too Long");
    assert_eq!(whole(&"a".repeat(1 << 20)), "HTTP/1.1 414 URI Too Long");
    let head = format!("GET / HTTP/1.1\r\n{}\r\n", "A: b\r\n".repeat(20_000));
    assert_eq!(whole(&head), "HTTP/1.1 431 Request Header Fields Too Large");
    let body = format!("POST / HTTP/1.1\r\nContent-Length: {}\r\n\r\n", MOST_BODY + 1);
    assert_eq!(whole(&body), "HTTP/1.1 413 Content Too Large");
    let many = format!("POST / HTTP/1.1\r\nContent-Length: {}\r\n\r\n", "9".repeat(60));
    assert_eq!(whole(&many), "HTTP/1.1 413 Content Too Large");
}

#[test]
fn bodies_that_lie_about_their_length() {
    let short = b"POST / HTTP/1.1\r\nContent-Length: 30\r\n\r\nabc";
    assert_eq!(sent(&[short], Duration::ZERO, false), "HTTP/1.1 408 Request Timeout");
    assert_eq!(sent(&[short], Duration::ZERO, true), "HTTP/1.1 400 Bad Request");
    let long = "POST / HTTP/1.1\r\nContent-Length: 3\r\n\r\nabcdef";
    assert_eq!(whole(long), "POST / abc");
    for wrong in ["-1", "+3", "3 3", "0x3", "", "3,3"] {
        let request = format!("POST / HTTP/1.1\r\nContent-Length: {wrong}\r\n\r\nabc");
        assert_eq!(whole(&request), "HTTP/1.1 400 Bad Request", "{wrong}");
    }
    let twice = "POST / HTTP/1.1\r\nContent-Length: 3\r\nContent-Length: 4\r\n\r\nabcd";
    assert_eq!(whole(twice), "HTTP/1.1 400 Bad Request");
    assert_eq!(whole("POST / HTTP/1.1\r\n\r\n"), "HTTP/1.1 411 Length Required");
    let chunked = "POST / HTTP/1.1\r\nTransfer-Encoding: chunked\r\n\r\n3\r\nabc\r\n0\r\n\r\n";
    assert_eq!(whole(chunked), "HTTP/1.1 501 Not Implemented");
}

#[test]
fn slow_clients_are_not_waited_for() {
    let began = Instant::now();
    assert_eq!(sent(&[b"GET / HT"], Duration::ZERO, false), "HTTP/1.1 408 Request Timeout");
    let slowly: Vec<&[u8]> = [&b"a"[..]; 20].to_vec();
    let said = sent(&slowly, Duration::from_millis(30), false);
    assert_eq!(said, "HTTP/1.1 408 Request Timeout");
    assert!(began.elapsed() < Duration::from_secs(8));
}

#[test]
fn requests_without_form() {
    for wrong in [
        "\r\n\r\n",
        "GET\r\n\r\n",
        "GET / HTTP/1.1 x\r\n\r\n",
        "GET  / HTTP/1.1\r\n\r\n",
        "GET x HTTP/1.1\r\n\r\n",
        "GET http://a/ HTTP/1.1\r\n\r\n",
        "G T / HTTP/1.1\r\n\r\n",
        "GET /\u{e9} HTTP/1.1\r\n\r\n",
        "GET / HTTP/1.1\r\nno colon\r\n\r\n",
        "GET / HTTP/1.1\r\nA: b\r\n folded\r\n\r\n",
        "GET / HTTP/1.1\r\nHost: a\r\nHost: b\r\n\r\n",
        "GET / HTTP/1.1\r\nA: b\0c\r\n\r\n",
    ] {
        assert_eq!(whole(wrong), "HTTP/1.1 400 Bad Request", "{wrong:?}");
    }
    let version = "GET / HTTP/2.0\r\n\r\n";
    assert_eq!(whole(version), "HTTP/1.1 505 HTTP Version Not Supported");
    assert_eq!(
        sent(&[b"GET / HTTP/1.1\xff\r\n\r\n"], Duration::ZERO, false),
        "HTTP/1.1 400 Bad Request"
    );
}
